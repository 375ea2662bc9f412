//! The kernels of bit packing and of series in plain Rust and in hand-unrolled Rust, timed on the rows that `vx_bench
//! kernels` makes.
//!
//!     kernels plain|unrolled u8|u32|u64 WIDTH ROWS REPEATS
//!
//! blocks.rs has the kernels of blocks and of whole columns, as another program over the same rows and clock: so the machine
//! code of these loops, and with it their time, doesn't depend on those.
//!
//! Writes a line for each measurement, as vx_bench does: kernel, type, width, rows, the least processor time in
//! microseconds, and a digest of the answer.

use std::env;
use std::hint::black_box;
use std::iter;
use std::process::ExitCode;
use std::time::Duration;

/// The rows of a packed block: at every width they fill whole bytes.
pub const BLOCK_ROWS: usize = 1024;

/// The generator of values: each state is the one before it times MULTIPLIER plus INCREMENT.
const SEED: u64 = 1;
const MULTIPLIER: u64 = 6364136223846793005;
const INCREMENT: u64 = 1442695040888963407;

/// A digest is multiplied by this before the next item is added.
const DIGEST_FACTOR: u64 = 31;

/// The one width at which the kernels of series are timed.
pub const SERIES_WIDTH: u32 = 7;

/// The length of each run of their rows.
const RUN_ROWS: u32 = 100;

// ---------------------------------------------------------------------------------------------
// types

/// An unsigned integer type.
pub trait Integer: Copy {
    const NAME: &'static str;
    const BITS: u32;

    fn to_bits(self) -> u64;
    fn from_low_bits(bits: u64) -> Self;
}

macro_rules! integers {
    ($($int:ident),*) => {
        $(impl Integer for $int {
            const NAME: &'static str = stringify!($int);
            const BITS: u32 = $int::BITS;

            #[inline(always)]
            fn to_bits(self) -> u64 {
                self as u64
            }

            #[inline(always)]
            fn from_low_bits(bits: u64) -> Self {
                bits as $int
            }
        })*
    };
}

integers!(u8, u32, u64);

/// The low `width` bits.
const fn mask(width: u32) -> u64 {
    u64::MAX >> (64 - width)
}

/// The packed value of a row: 0 for a null and for a row that is wider.
#[inline(always)]
fn fit(bits: u64, valid: bool, width: u32) -> u64 {
    if valid && bits <= mask(width) { bits } else { 0 }
}

/// The bytes that the rows take, in whole blocks.
fn packed_size(rows: usize, width: u32) -> usize {
    rows.div_ceil(BLOCK_ROWS) * BLOCK_ROWS / 8 * width as usize
}

/// The kernels, written in one way.
pub trait Kernels {
    /// Entry w is the number of rows with w binary digits.
    fn histogram<T: Integer>(values: &[T], valid: &[bool]) -> Vec<u64>;

    /// The rows at `width` bits each, one after the other, least significant bit first.
    fn pack<T: Integer>(values: &[T], valid: &[bool], width: u32) -> Vec<u8>;

    /// The first rows of the packed bytes.
    fn unpack<T: Integer>(packed: &[u8], width: u32, rows: usize) -> Vec<T>;

    /// The end of each run, exclusive. Two nulls are equal.
    fn runs<T: Integer>(values: &[T], valid: &[bool]) -> Vec<u64>;

    /// The first row of each run, where a run ends with its block too; for each row the index of its run in its block, 0
    /// behind the last row; and the number of runs before each block.
    fn block_runs<T: Integer>(values: &[T], valid: &[bool]) -> BlockRuns;

    /// The first row and the step of an arithmetic sequence.
    fn sequence<T: Integer>(values: &[T]) -> Option<(i128, i128)>;

    /// The first row of each block, and the difference of each row to the row before, 0 in a block's first row and behind
    /// the last row. A null counts as the value before it.
    fn delta<T: Integer>(values: &[T], valid: &[bool]) -> (Vec<T>, Vec<T>);

    /// The rows that bases and differences stand for: prefix sums within each block.
    fn undelta<T: Integer>(bases: &[T], deltas: &[T]) -> Vec<T>;
}

/// Heads, numbers and offsets.
pub type BlockRuns = (Vec<u64>, Vec<u64>, Vec<u64>);

/// Whether two rows aren't equal.
#[inline(always)]
fn is_other<T: Integer>(values: &[T], valid: &[bool], row: usize) -> bool {
    valid[row] != valid[row - 1] || valid[row] && values[row].to_bits() != values[row - 1].to_bits()
}

// ---------------------------------------------------------------------------------------------
// plain

/// Loops row by row.
pub struct Plain;

impl Kernels for Plain {
    #[inline(never)]
    fn histogram<T: Integer>(values: &[T], valid: &[bool]) -> Vec<u64> {
        let mut counts = vec![0; T::BITS as usize + 1];
        for (value, valid) in values.iter().zip(valid) {
            let bits = if *valid { value.to_bits() } else { 0 };
            counts[(64 - bits.leading_zeros()) as usize] += 1;
        }
        counts
    }

    #[inline(never)]
    fn pack<T: Integer>(values: &[T], valid: &[bool], width: u32) -> Vec<u8> {
        let size = packed_size(values.len(), width);
        let mut out = Vec::with_capacity(size);
        let (mut acc, mut fill) = (0, 0);
        for (value, valid) in values.iter().zip(valid) {
            let bits = fit(value.to_bits(), *valid, width);
            acc |= bits << fill;
            fill += width;
            if fill >= 64 {
                out.extend_from_slice(&acc.to_le_bytes());
                fill -= 64;
                // The bits that don't fit into the word.
                acc = if fill == 0 { 0 } else { bits >> (width - fill) };
            }
        }
        if fill != 0 {
            out.extend_from_slice(&acc.to_le_bytes());
        }
        out.resize(size, 0);
        out
    }

    #[inline(never)]
    fn unpack<T: Integer>(packed: &[u8], width: u32, rows: usize) -> Vec<T> {
        let mask = mask(width);
        let row_at = |row| {
            let at = row * width as usize;
            let (bytes, shift) = (&packed[at / 8..], (at % 8) as u32);
            let mut bits = word_at(bytes) >> shift;
            if shift + width > 64 {
                bits |= (bytes[8] as u64) << (64 - shift);
            }
            T::from_low_bits(bits & mask)
        };
        (0..rows).map(row_at).collect()
    }

    #[inline(never)]
    fn runs<T: Integer>(values: &[T], valid: &[bool]) -> Vec<u64> {
        let mut ends = Vec::new();
        for row in 1..values.len() {
            if is_other(values, valid, row) {
                ends.push(row as u64);
            }
        }
        if !values.is_empty() {
            ends.push(values.len() as u64);
        }
        ends
    }

    #[inline(never)]
    fn block_runs<T: Integer>(values: &[T], valid: &[bool]) -> BlockRuns {
        let blocks = values.len().div_ceil(BLOCK_ROWS);
        let (mut heads, mut numbers) = (Vec::new(), vec![0; blocks * BLOCK_ROWS]);
        let mut offsets = Vec::with_capacity(blocks);
        let mut number = 0;
        for row in 0..values.len() {
            if row % BLOCK_ROWS == 0 {
                offsets.push(heads.len() as u64);
                heads.push(row as u64);
                number = 0;
            } else if is_other(values, valid, row) {
                heads.push(row as u64);
                number += 1;
            }
            numbers[row] = number;
        }
        (heads, numbers, offsets)
    }

    #[inline(never)]
    fn sequence<T: Integer>(values: &[T]) -> Option<(i128, i128)> {
        let (first, second) = (values.first()?.to_bits() as i128, values.get(1)?.to_bits() as i128);
        let step = second - first;
        if step < 0 {
            return None;
        }
        let mut next = first;
        for value in values {
            if value.to_bits() as i128 != next {
                return None;
            }
            next += step;
        }
        Some((first, step))
    }

    #[inline(never)]
    fn delta<T: Integer>(values: &[T], valid: &[bool]) -> (Vec<T>, Vec<T>) {
        let blocks = values.len().div_ceil(BLOCK_ROWS);
        let (mut bases, mut deltas) = (Vec::with_capacity(blocks), Vec::with_capacity(blocks * BLOCK_ROWS));
        let mut before = 0;
        for (row, bits) in Plain::filled(values, valid).enumerate() {
            if row % BLOCK_ROWS == 0 {
                bases.push(T::from_low_bits(bits));
                before = bits;
            }
            deltas.push(T::from_low_bits(bits.wrapping_sub(before)));
            before = bits;
        }
        deltas.resize(blocks * BLOCK_ROWS, T::from_low_bits(0));
        (bases, deltas)
    }

    #[inline(never)]
    fn undelta<T: Integer>(bases: &[T], deltas: &[T]) -> Vec<T> {
        let mut rows = Vec::with_capacity(deltas.len());
        for (base, deltas) in bases.iter().zip(deltas.chunks_exact(BLOCK_ROWS)) {
            let mut sum = base.to_bits();
            for delta in deltas {
                sum = sum.wrapping_add(delta.to_bits());
                rows.push(T::from_low_bits(sum));
            }
        }
        rows
    }
}

/// The kernels of series, row by row.
impl Plain {
    /// The rows, each null replaced by the value before it.
    fn filled<T: Integer>(values: &[T], valid: &[bool]) -> impl Iterator<Item = u64> {
        let mut last = 0;
        values.iter().zip(valid).map(move |(value, valid)| {
            if *valid {
                last = value.to_bits();
            }
            last
        })
    }
}

/// The first eight bytes, or fewer where the slice ends, as a word.
#[inline(always)]
fn word_at(bytes: &[u8]) -> u64 {
    match bytes.first_chunk() {
        Some(word) => u64::from_le_bytes(*word),
        None => bytes.iter().rev().fold(0, |word, byte| word << 8 | *byte as u64),
    }
}

// ---------------------------------------------------------------------------------------------
// unrolled

/// 64 rows at a time, with a body for each width.
pub struct Unrolled;

/// Rows at a time: 64 rows fill whole words at every width.
pub const GROUP: usize = 64;

/// Writes the body once for each row of a group, with the row as a constant.
macro_rules! each_row {
    (|$row:ident| $body:block) => {
        each_row!($row $body
             0  1  2  3  4  5  6  7  8  9 10 11 12 13 14 15 16 17 18 19 20 21 22 23 24 25 26 27 28 29 30 31
            32 33 34 35 36 37 38 39 40 41 42 43 44 45 46 47 48 49 50 51 52 53 54 55 56 57 58 59 60 61 62 63)
    };
    ($row:ident $body:block $($number:literal)*) => {
        $({
            const $row: usize = $number;
            $body
        })*
    };
}

/// Calls the body of a function for a width; there is one for each width that is timed.
macro_rules! by_width {
    ($width:ident, $function:ident::<$type:ident> $args:tt) => {
        by_width!($width, $function::<$type> $args, 1 4 7 12 20 31 63)
    };
    ($width:ident, $function:ident::<$type:ident> $args:tt, $($w:literal)*) => {
        match $width {
            $($w => $function::<$type, $w> $args,)*
            _ => unimplemented!("width {}", $width),
        }
    };
}

impl Kernels for Unrolled {
    /// Counts in four tables in turn, so that no row waits for the one before it.
    #[inline(never)]
    fn histogram<T: Integer>(values: &[T], valid: &[bool]) -> Vec<u64> {
        let mut tables = [[0u64; 65]; 4];
        let digits = |value: &T, valid: bool| {
            let bits = if valid { value.to_bits() } else { 0 };
            (64 - bits.leading_zeros()) as usize
        };
        let (values, last_values) = values.as_chunks::<4>();
        let (valid, last_valid) = valid.as_chunks::<4>();
        for (values, valid) in values.iter().zip(valid) {
            tables[0][digits(&values[0], valid[0])] += 1;
            tables[1][digits(&values[1], valid[1])] += 1;
            tables[2][digits(&values[2], valid[2])] += 1;
            tables[3][digits(&values[3], valid[3])] += 1;
        }
        for (value, valid) in last_values.iter().zip(last_valid) {
            tables[0][digits(value, *valid)] += 1;
        }
        (0..=T::BITS as usize).map(|w| tables.iter().map(|table| table[w]).sum()).collect()
    }

    #[inline(never)]
    fn pack<T: Integer>(values: &[T], valid: &[bool], width: u32) -> Vec<u8> {
        by_width!(width, pack_groups::<T>(values, valid))
    }

    #[inline(never)]
    fn unpack<T: Integer>(packed: &[u8], width: u32, rows: usize) -> Vec<T> {
        by_width!(width, unpack_groups::<T>(packed, rows))
    }

    /// Eight rows at once are looked at for an end; few have one.
    #[inline(never)]
    fn runs<T: Integer>(values: &[T], valid: &[bool]) -> Vec<u64> {
        let mut ends = Vec::new();
        let mut row = 1;
        while row + 8 <= values.len() {
            if has_end(values, valid, row) {
                ends.extend((row..row + 8).filter(|row| is_other(values, valid, *row)).map(|row| row as u64));
            }
            row += 8;
        }
        ends.extend((row..values.len()).filter(|row| is_other(values, valid, *row)).map(|row| row as u64));
        if !values.is_empty() {
            ends.push(values.len() as u64);
        }
        ends
    }

    #[inline(never)]
    fn block_runs<T: Integer>(values: &[T], valid: &[bool]) -> BlockRuns {
        let blocks = values.len().div_ceil(BLOCK_ROWS);
        let (mut heads, mut numbers) = (Vec::new(), vec![0; blocks * BLOCK_ROWS]);
        let mut offsets = Vec::with_capacity(blocks);
        for (block, numbers) in numbers.chunks_exact_mut(BLOCK_ROWS).enumerate() {
            let (start, end) = (block * BLOCK_ROWS, values.len().min((block + 1) * BLOCK_ROWS));
            offsets.push(heads.len() as u64);
            heads.push(start as u64);
            let (mut number, mut row) = (0, start + 1);
            while row < end {
                if row + 8 <= end && !has_end(values, valid, row) {
                    numbers[row - start..row - start + 8].fill(number);
                    row += 8;
                } else {
                    if is_other(values, valid, row) {
                        heads.push(row as u64);
                        number += 1;
                    }
                    numbers[row - start] = number;
                    row += 1;
                }
            }
        }
        (heads, numbers, offsets)
    }

    /// Eight differences at once.
    #[inline(never)]
    fn sequence<T: Integer>(values: &[T]) -> Option<(i128, i128)> {
        let (first, second) = (values.first()?.to_bits(), values.get(1)?.to_bits());
        let step = second.checked_sub(first)?;
        (first as u128 + step as u128 * (values.len() as u128 - 1) <= (u64::MAX >> (64 - T::BITS)) as u128).then_some(())?;
        let mut next = first;
        let (eights, last) = values.as_chunks::<8>();
        for eight in eights {
            let mut differ = 0;
            for (place, value) in eight.iter().enumerate() {
                differ |= value.to_bits() ^ next.wrapping_add(step.wrapping_mul(place as u64));
            }
            (differ == 0).then_some(())?;
            next = next.wrapping_add(step.wrapping_mul(8));
        }
        for value in last {
            (value.to_bits() == next).then_some(())?;
            next = next.wrapping_add(step);
        }
        Some((first as i128, step as i128))
    }

    /// In whole blocks without nulls no difference waits for the row before it.
    #[inline(never)]
    fn delta<T: Integer>(values: &[T], valid: &[bool]) -> (Vec<T>, Vec<T>) {
        if !valid.iter().fold(true, |all, valid| all & valid) {
            return Plain::delta(values, valid);
        }
        let blocks = values.len().div_ceil(BLOCK_ROWS);
        let mut deltas = vec![T::from_low_bits(0); blocks * BLOCK_ROWS];
        let mut bases = Vec::with_capacity(blocks);
        for (values, deltas) in values.chunks(BLOCK_ROWS).zip(deltas.chunks_exact_mut(BLOCK_ROWS)) {
            bases.push(values[0]);
            for (delta, pair) in deltas[1..].iter_mut().zip(values.windows(2)) {
                *delta = T::from_low_bits(pair[1].to_bits().wrapping_sub(pair[0].to_bits()));
            }
        }
        (bases, deltas)
    }

    /// Four sums at once, so that only one in four waits for the one before it.
    #[inline(never)]
    fn undelta<T: Integer>(bases: &[T], deltas: &[T]) -> Vec<T> {
        let mut rows = vec![T::from_low_bits(0); deltas.len()];
        let blocks = deltas.chunks_exact(BLOCK_ROWS).zip(rows.chunks_exact_mut(BLOCK_ROWS));
        for (base, (deltas, rows)) in bases.iter().zip(blocks) {
            let mut sum = base.to_bits();
            for (deltas, rows) in deltas.as_chunks::<4>().0.iter().zip(rows.as_chunks_mut::<4>().0) {
                let [a, b, c, d] = deltas.map(T::to_bits);
                let (ab, cd) = (a.wrapping_add(b), c.wrapping_add(d));
                rows[0] = T::from_low_bits(sum.wrapping_add(a));
                rows[1] = T::from_low_bits(sum.wrapping_add(ab));
                rows[2] = T::from_low_bits(sum.wrapping_add(ab.wrapping_add(c)));
                sum = sum.wrapping_add(ab.wrapping_add(cd));
                rows[3] = T::from_low_bits(sum);
            }
        }
        rows
    }
}

/// Whether a run ends before one of eight rows.
#[inline(always)]
fn has_end<T: Integer>(values: &[T], valid: &[bool], row: usize) -> bool {
    let (now, before) = (&values[row..row + 8], &values[row - 1..row + 7]);
    let (now_valid, before_valid) = (&valid[row..row + 8], &valid[row - 1..row + 7]);
    let mut other = false;
    for place in 0..8 {
        let same_bits = now[place].to_bits() == before[place].to_bits();
        other |= now_valid[place] != before_valid[place] || now_valid[place] && !same_bits;
    }
    other
}

fn pack_groups<T: Integer, const W: usize>(values: &[T], valid: &[bool]) -> Vec<u8> {
    let mut out = vec![0; packed_size(values.len(), W as u32)];
    let groups = values.chunks(GROUP).zip(valid.chunks(GROUP));
    for ((values, valid), out) in groups.zip(out.chunks_exact_mut(8 * W)) {
        pack_group::<W>(&fitting_group::<T, W>(values, valid), out);
    }
    out
}

/// The packed values of a group, with zeros behind its rows. All rows are tested at once.
#[inline(always)]
pub fn fitting_group<T: Integer, const W: usize>(values: &[T], valid: &[bool]) -> [u64; GROUP] {
    let mut group = [0; GROUP];
    for (bits, value) in group.iter_mut().zip(values) {
        *bits = value.to_bits();
    }
    let all_valid = valid.iter().fold(true, |all, valid| all & valid);
    let union = group.iter().fold(0, |union, bits| union | bits);
    if !all_valid || union > mask(W as u32) {
        for (bits, valid) in group.iter_mut().zip(valid) {
            *bits = fit(*bits, *valid, W as u32);
        }
    }
    group
}

#[inline(always)]
pub fn pack_group<const W: usize>(group: &[u64; GROUP], out: &mut [u8]) {
    let out = &mut out[..8 * W];
    let mut acc = 0;
    each_row!(|ROW| {
        let (at, fill) = (ROW * W / 64, ROW * W % 64);
        let bits = group[ROW];
        acc |= bits << fill;
        if fill + W >= 64 {
            out[8 * at..8 * at + 8].copy_from_slice(&acc.to_le_bytes());
            // The bits that don't fit into the word.
            acc = if fill + W > 64 { bits >> (64 - fill) } else { 0 };
        }
    });
    debug_assert_eq!(acc, 0);
}

fn unpack_groups<T: Integer, const W: usize>(packed: &[u8], rows: usize) -> Vec<T> {
    let mut out = Vec::with_capacity(rows);
    for packed in packed.chunks_exact(8 * W).take(rows.div_ceil(GROUP)) {
        let group = unpack_group::<T, W>(packed);
        let len = GROUP.min(rows - out.len());
        out.extend_from_slice(&group[..len]);
    }
    out
}

#[inline(always)]
pub fn unpack_group<T: Integer, const W: usize>(packed: &[u8]) -> [T; GROUP] {
    let packed = &packed[..8 * W];
    let word = |at: usize| u64::from_le_bytes(packed[8 * at..8 * at + 8].try_into().unwrap());
    let mut group = [T::from_low_bits(0); GROUP];
    each_row!(|ROW| {
        let (at, shift) = (ROW * W / 64, ROW * W % 64);
        let mut bits = word(at) >> shift;
        if shift + W > 64 {
            bits |= word(at + 1) << (64 - shift);
        }
        group[ROW] = T::from_low_bits(bits & mask(W as u32));
    });
    group
}

// ---------------------------------------------------------------------------------------------
// timing

/// The rows that vx_bench makes.
pub fn values<T: Integer>(rows: usize, width: u32) -> Vec<T> {
    let mut state = SEED;
    let next = || {
        state = state.wrapping_mul(MULTIPLIER).wrapping_add(INCREMENT);
        T::from_low_bits(state >> (64 - width))
    };
    iter::repeat_with(next).take(rows).collect()
}

/// Runs of such values, each RUN_ROWS long.
pub fn repeated<T: Integer>(rows: usize, width: u32) -> Vec<T> {
    let (mut state, mut left) = (SEED, 0);
    let next = || {
        if left == 0 {
            state = state.wrapping_mul(MULTIPLIER).wrapping_add(INCREMENT);
            left = RUN_ROWS;
        }
        left -= 1;
        T::from_low_bits(state >> (64 - width))
    };
    iter::repeat_with(next).take(rows).collect()
}

/// The numbers from 0 on.
fn ramp<T: Integer>(rows: usize) -> Vec<T> {
    (0..rows as u64).map(T::from_low_bits).collect()
}

/// The processor time of this thread, by the C library: std has no such clock.
fn processor_time() -> Duration {
    #[repr(C)]
    struct Time {
        seconds: i64,
        nanos: i64,
    }

    unsafe extern "C" {
        fn clock_gettime(clock: i32, time: *mut Time) -> i32;
    }

    const THREAD: i32 = 3;
    let mut time = Time { seconds: 0, nanos: 0 };
    let status = unsafe { clock_gettime(THREAD, &mut time) };
    assert_eq!(status, 0, "the processor time could not be read");
    Duration::new(time.seconds as u64, time.nanos as u32)
}

pub fn digest<T: Integer>(items: &[T]) -> u64 {
    items.iter().fold(0, |sum: u64, item| sum.wrapping_mul(DIGEST_FACTOR).wrapping_add(item.to_bits()))
}

/// Runs a kernel once, and then by the clock: the least processor time in microseconds, and the answer.
pub fn best_of<A>(repeats: u32, kernel: impl Fn() -> A) -> (u128, A) {
    let mut best = u128::MAX;
    let mut answer = kernel();
    for _ in 0..repeats {
        drop(answer);
        let start = processor_time();
        answer = black_box(kernel());
        best = best.min((processor_time() - start).as_micros());
    }
    (best, answer)
}

/// The rows that the kernels run on, and the number of timed runs of each.
pub struct Setting {
    pub width: u32,
    pub rows: usize,
    repeats: u32,
}

impl Setting {
    pub fn parse(width: &str, rows: &str, repeats: &str) -> Option<Self> {
        Some(Setting { width: width.parse().ok()?, rows: rows.parse().ok()?, repeats: repeats.parse().ok()? })
    }

    /// Times a kernel that answers one list.
    pub fn time<T: Integer, A: Integer>(&self, name: &str, kernel: impl Fn() -> Vec<A>) -> Vec<A> {
        self.time_by::<T, _>(name, kernel, |answer| digest(answer))
    }

    /// Times a kernel, writes its line, and gives the answer.
    fn time_by<T: Integer, A>(&self, name: &str, kernel: impl Fn() -> A, digest: impl Fn(&A) -> u64) -> A {
        let (best, answer) = best_of(self.repeats, kernel);
        println!("{name} {} {} {} {best} {}", T::NAME, self.width, self.rows, digest(&answer));
        answer
    }

    /// Times the kernels of series: on runs, and on a ramp where the type holds a long one.
    fn time_series<K: Kernels, T: Integer>(&self) {
        let values = repeated::<T>(self.rows, self.width);
        let valid = vec![true; self.rows];
        self.time::<T, u64>("runs", || K::runs(&values, &valid));
        self.time_by::<T, BlockRuns>("block_runs", || K::block_runs(&values, &valid), |(heads, numbers, offsets)| {
            digest(heads).wrapping_add(digest(numbers)).wrapping_add(digest(offsets))
        });
        if T::BITS > 8 {
            let ramp = ramp::<T>(self.rows);
            self.time_by::<T, _>("sequence", || K::sequence(&ramp), |found| found.is_some() as u64);
        }
        let both = |(bases, deltas): &(Vec<T>, Vec<T>)| digest(bases).wrapping_add(digest(deltas));
        let (bases, deltas) = self.time_by::<T, _>("delta", || K::delta(&values, &valid), both);
        self.time::<T, T>("undelta", || K::undelta(&bases, &deltas));
    }

    fn time_all<K: Kernels, T: Integer>(&self) {
        let values = values::<T>(self.rows, self.width);
        let valid = vec![true; self.rows];
        self.time::<T, _>("histogram", || K::histogram(&values, &valid));
        let packed = self.time::<T, _>("pack", || K::pack(&values, &valid, self.width));
        self.time::<T, u64>("unpack", || K::unpack(&packed, self.width, self.rows));
        self.time::<T, T>("canonical", || K::unpack(&packed, self.width, self.rows));
        if self.width == SERIES_WIDTH {
            self.time_series::<K, T>();
        }
    }

    /// Times all kernels on rows of a type. False where there is no such type, or it hasn't the width.
    fn time_type<K: Kernels>(&self, name: &str) -> bool {
        match name {
            "u8" if (1..=8).contains(&self.width) => self.time_all::<K, u8>(),
            "u32" if (1..=32).contains(&self.width) => self.time_all::<K, u32>(),
            "u64" if (1..=64).contains(&self.width) => self.time_all::<K, u64>(),
            _ => return false,
        }
        true
    }
}

/// Times what the arguments ask for. False where they ask for nothing known.
fn run(words: &[&str]) -> bool {
    let [way, name, width, rows, repeats] = words else {
        return false;
    };
    let Some(setting) = Setting::parse(width, rows, repeats) else {
        return false;
    };
    match *way {
        "plain" => setting.time_type::<Plain>(name),
        "unrolled" => setting.time_type::<Unrolled>(name),
        _ => false,
    }
}

fn main() -> ExitCode {
    let words: Vec<String> = env::args().skip(1).collect();
    if run(&words.iter().map(String::as_str).collect::<Vec<_>>()) {
        ExitCode::SUCCESS
    } else {
        eprintln!("usage: kernels plain|unrolled u8|u32|u64 WIDTH ROWS REPEATS");
        ExitCode::from(2)
    }
}
