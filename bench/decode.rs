//! Decoding of each node in plain Rust, row by row, and in Rust by blocks, timed on the rows that `vx_bench decode` decodes.
//!
//!     decode plain|unrolled full|nulls ROWS REPEATS
//!
//! Writes a line for each node, as vx_bench does: node, rows, the least processor time in microseconds, and a digest of the
//! rows and their validity. Columns with nulls have one in each tenth row, or in each tenth of what their rows repeat. The
//! rows beneath nulls are zeros.

use std::env;
use std::iter;
use std::process::ExitCode;

#[allow(dead_code)]
#[macro_use]
#[path = "kernels.rs"]
mod kernels;

use kernels::{
    BLOCK_ROWS, GROUP, Integer, Kernels, Plain, Unrolled, best_of, digest, repeated, unpack_group, values,
};

const NULL_STEP: usize = 10;        // each tenth row is null
const WIDTH: usize = 12;            // the bits of packed rows
const WIDE: u32 = 63;               // those of others
const VALUE: u64 = 7;               // of constants, and the fill of sparse rows
const TEXT_BYTES: usize = 8;
const PATCH_STEP: usize = 100;      // one of so many packed rows has a patch
const REFERENCE: u64 = 1_000_000_000_000;
const RUN_ROWS: usize = 100;
const CODE_BITS: u32 = 9;
const DICTIONARY: usize = 512;
const SPARSE_STEP: usize = 20;      // one of so many rows isn't the fill
const FIRST: u64 = 5;               // of sequences
const STEP: u64 = 3;

/// 16-bit codes.
impl Integer for u16 {
    const NAME: &'static str = "u16";
    const BITS: u32 = u16::BITS;

    #[inline(always)]
    fn to_bits(self) -> u64 {
        self as u64
    }

    #[inline(always)]
    fn from_low_bits(bits: u64) -> Self {
        bits as u16
    }
}

/// Validity, where there are nulls.
type Valid = Option<Vec<bool>>;

/// A plain column.
type Column<T = u64> = (Vec<T>, Valid);

/// How rows are written.
trait Way {
    /// Each row by its number; zero where it is null.
    fn rows<T: Copy + Default>(len: usize, valid: &Valid, at: impl Fn(usize) -> T) -> Column<T>;

    /// Each run's value in its rows, up to its end.
    fn runs(ends: &[u64], valid: &Valid, at: impl Fn(usize) -> u64) -> Column;

    /// What becomes of each packed row.
    fn unpacked(packed: &[u8], len: usize, valid: &Valid, of: impl Fn(u64) -> u64) -> Column;

    /// Sums of differences, a base for each block.
    fn sums(bases: &[u64], packed: &[u8], len: usize, valid: &Valid) -> Column;
}

/// Row by row.
impl Way for Plain {
    #[inline(never)]
    fn rows<T: Copy + Default>(len: usize, valid: &Valid, at: impl Fn(usize) -> T) -> Column<T> {
        let mut out = Vec::with_capacity(len);
        for row in 0..len {
            let is_valid = valid.as_ref().is_none_or(|valid| valid[row]);
            out.push(if is_valid { at(row) } else { T::default() });
        }
        (out, valid.clone())
    }

    #[inline(never)]
    fn runs(ends: &[u64], valid: &Valid, at: impl Fn(usize) -> u64) -> Column {
        let len = ends.last().map_or(0, |end| *end as usize);
        let (mut out, mut bits) = (Vec::with_capacity(len), Vec::new());
        if valid.is_some() {
            bits.reserve(len);
        }
        for (run, end) in ends.iter().enumerate() {
            let is_valid = valid.as_ref().is_none_or(|valid| valid[run]);
            let value = if is_valid { at(run) } else { 0 };
            while out.len() < *end as usize {
                out.push(value);
                if valid.is_some() {
                    bits.push(is_valid);
                }
            }
        }
        (out, valid.as_ref().map(|_| bits))
    }

    #[inline(never)]
    fn unpacked(packed: &[u8], len: usize, valid: &Valid, of: impl Fn(u64) -> u64) -> Column {
        <Plain as Way>::rows(len, valid, |row| of(packed_row(packed, row)))
    }

    #[inline(never)]
    fn sums(bases: &[u64], packed: &[u8], len: usize, valid: &Valid) -> Column {
        let mut out = Vec::with_capacity(len);
        let mut sum: u64 = 0;
        for row in 0..len {
            if row % BLOCK_ROWS == 0 {
                sum = bases[row / BLOCK_ROWS];
            }
            sum = sum.wrapping_add(packed_row(packed, row));
            let is_valid = valid.as_ref().is_none_or(|valid| valid[row]);
            out.push(if is_valid { sum } else { 0 });
        }
        (out, valid.clone())
    }
}

/// By blocks of 1,024 rows, runs, or groups of 64 packed rows.
impl Way for Unrolled {
    #[inline(never)]
    fn rows<T: Copy + Default>(len: usize, valid: &Valid, at: impl Fn(usize) -> T) -> Column<T> {
        let mut out = Vec::with_capacity(len);
        for start in (0..len).step_by(BLOCK_ROWS) {
            let rows = start..len.min(start + BLOCK_ROWS);
            match valid {
                None => out.extend(rows.map(&at)),
                Some(valid) => out.extend(rows.map(|row| if valid[row] { at(row) } else { T::default() })),
            }
        }
        (out, valid.clone())
    }

    #[inline(never)]
    fn runs(ends: &[u64], valid: &Valid, at: impl Fn(usize) -> u64) -> Column {
        let len = ends.last().map_or(0, |end| *end as usize);
        let mut out = Vec::with_capacity(len);
        for (run, end) in ends.iter().enumerate() {
            let is_valid = valid.as_ref().is_none_or(|valid| valid[run]);
            let value = if is_valid { at(run) } else { 0 };
            out.extend(iter::repeat_n(value, *end as usize - out.len()));
        }
        let bits = valid.as_ref().map(|valid| {
            let mut bits = Vec::with_capacity(len);
            for (is_valid, end) in valid.iter().zip(ends) {
                bits.extend(iter::repeat_n(*is_valid, *end as usize - bits.len()));
            }
            bits
        });
        (out, bits)
    }

    #[inline(never)]
    fn unpacked(packed: &[u8], len: usize, valid: &Valid, of: impl Fn(u64) -> u64) -> Column {
        let mut out = Vec::with_capacity(len);
        for (number, packed) in packed.chunks_exact(8 * WIDTH).take(len.div_ceil(GROUP)).enumerate() {
            let group = unpack_group::<u64, WIDTH>(packed).map(&of);
            out.extend_from_slice(&group[..GROUP.min(len - number * GROUP)]);
        }
        zero_beneath(&mut out, valid);
        (out, valid.clone())
    }

    #[inline(never)]
    fn sums(bases: &[u64], packed: &[u8], len: usize, valid: &Valid) -> Column {
        let deltas = <Unrolled as Kernels>::unpack::<u64>(packed, WIDTH as u32, bases.len() * BLOCK_ROWS);
        let mut out = <Unrolled as Kernels>::undelta(bases, &deltas);
        out.truncate(len);
        zero_beneath(&mut out, valid);
        (out, valid.clone())
    }
}

/// One packed row.
#[inline(always)]
fn packed_row(packed: &[u8], row: usize) -> u64 {
    let at = row * WIDTH;
    let bytes = &packed[at / 8..];
    let word = match bytes.first_chunk() {
        Some(word) => u64::from_le_bytes(*word),
        None => bytes.iter().rev().fold(0, |word, byte| word << 8 | *byte as u64),
    };
    word >> (at % 8) & ((1 << WIDTH) - 1)
}

fn zero_beneath(rows: &mut [u64], valid: &Valid) {
    if let Some(valid) = valid {
        for (row, is_valid) in rows.iter_mut().zip(valid) {
            *row = if *is_valid { *row } else { 0 };
        }
    }
}

/// The number that zigzag coding maps to these bits, in two's complement.
fn unzigzag(bits: u64) -> u64 {
    (bits >> 1) ^ (bits & 1).wrapping_neg()
}

/// False in each tenth row.
fn each_tenth_null(len: usize) -> Vec<bool> {
    (1..=len).map(|row| row % NULL_STEP != 0).collect()
}

fn random(len: usize) -> Vec<u64> {
    values(len, WIDE)
}

fn packed(len: usize) -> Vec<u8> {
    Plain::pack(&values::<u64>(len, WIDTH as u32), &vec![true; len], WIDTH as u32)
}

fn digest_of_bits(bits: &[bool]) -> u64 {
    digest(&bits.iter().map(|bit| *bit as u8).collect::<Vec<_>>())
}

/// What is asked for.
struct Decoding {
    nulls: bool,
    rows: usize,
    repeats: u32,
}

impl Decoding {
    fn parse(nulls: &str, rows: &str, repeats: &str) -> Option<Self> {
        let nulls = ["full", "nulls"].iter().position(|word| *word == nulls)? == 1;
        Some(Decoding { nulls, rows: rows.parse().ok()?, repeats: repeats.parse().ok()? })
    }

    /// The validity of so many rows.
    fn valid(&self, len: usize) -> Valid {
        self.nulls.then(|| each_tenth_null(len))
    }

    /// Times the decoding of a node, and writes its line.
    fn tell<T>(&self, node: &str, decoded: impl Fn() -> Column<T>, digest: impl Fn(&[T]) -> u64) {
        let (best, (rows, valid)) = best_of(self.repeats, decoded);
        let sum = digest(&rows).wrapping_add(valid.map_or(0, |valid| digest_of_bits(&valid)));
        println!("{node} {} {best} {sum}", self.rows);
    }

    fn tell_plain<W: Way>(&self) {
        let (len, valid) = (self.rows, self.valid(self.rows));
        let bits: Vec<bool> = values::<u64>(len, 1).iter().map(|bit| *bit == 1).collect();
        self.tell("bool", || W::rows(len, &valid, |row| bits[row]), digest_of_bits);
        let rows = random(len);
        let node = if self.nulls { "masked" } else { "sequence" };
        self.tell("primitive", || W::rows(len, &valid, |row| rows[row]), digest);
        self.tell_texts(&valid);
        self.tell("constant", || W::rows(len, &valid, |_| VALUE), digest);
        let sequence = |row| FIRST.wrapping_add(STEP.wrapping_mul(row as u64));
        self.tell(node, || W::rows(len, &valid, |row| if self.nulls { rows[row] } else { sequence(row) }), digest);
    }

    /// Texts as a list of lists of bytes, as rows are held.
    fn tell_texts(&self, valid: &Valid) {
        let ends: Vec<u64> = (0..=self.rows).map(|row| (row * TEXT_BYTES) as u64).collect();
        let bytes: Vec<u8> = values(self.rows * TEXT_BYTES, 7);
        let text_at = |row: usize| match valid {
            Some(valid) if !valid[row] => Vec::new(),
            _ => bytes[ends[row] as usize..ends[row + 1] as usize].to_vec(),
        };
        let decoded = || ((0..self.rows).map(text_at).collect(), valid.clone());
        self.tell("varbin", decoded, |rows: &[Vec<u8>]| digest(&rows.concat()));
    }

    fn tell_packed<W: Way>(&self) {
        let (len, valid, bytes) = (self.rows, self.valid(self.rows), packed(self.rows));
        self.tell("bitpacked", || W::unpacked(&bytes, len, &valid, |bits| bits), digest);
        let wide = random(len / PATCH_STEP);
        let patched = || {
            let (mut rows, valid) = W::unpacked(&bytes, len, &valid, |bits| bits);
            for (place, value) in wide.iter().enumerate() {
                let row = place * PATCH_STEP;
                if valid.as_ref().is_none_or(|valid| valid[row]) {
                    rows[row] = *value;
                }
            }
            (rows, valid)
        };
        self.tell("patched", patched, digest);
        self.tell("for", || W::unpacked(&bytes, len, &valid, |bits| bits.wrapping_add(REFERENCE)), digest);
        self.tell("zigzag", || W::unpacked(&bytes, len, &valid, unzigzag), digest);
        let blocks = len.div_ceil(BLOCK_ROWS);
        let (bases, deltas) = (random(blocks), packed(blocks * BLOCK_ROWS));
        self.tell("delta", || W::sums(&bases, &deltas, len, &valid), digest);
    }

    fn tell_runs<W: Way>(&self) {
        let count = self.rows / RUN_ROWS;
        let ends: Vec<u64> = (1..=count).map(|run| (run * RUN_ROWS) as u64).collect();
        let (heads, valid) = (random(count), self.valid(count));
        self.tell("runend", || W::runs(&ends, &valid, |run| heads[run]), digest);
        self.tell_blocks::<W>();
        let (codes, items) = (values::<u16>(self.rows, CODE_BITS), random(DICTIONARY));
        let row_valid = self.valid(self.rows);
        self.tell("dict", || W::rows(self.rows, &row_valid, |row| items[codes[row] as usize]), digest);
        let codes = values::<u16>(count, CODE_BITS);
        self.tell("dict-of-runs", || W::runs(&ends, &valid, |run| items[codes[run] as usize]), digest);
    }

    /// Runs in blocks: the number of each row's run within its block, and of the runs before each block.
    fn tell_blocks<W: Way>(&self) {
        let len = self.rows;
        let rows = repeated::<u64>(len, CODE_BITS);
        let (heads, numbers, offsets) = Plain::block_runs(&rows, &vec![true; len]);
        let (items, valid) = (random(heads.len()), self.valid(heads.len()));
        let place_of = |row: usize| (offsets[row / BLOCK_ROWS] + numbers[row]) as usize;
        let decoded = || match &valid {
            None => W::rows(len, &None, |row| items[place_of(row)]),
            Some(valid) => {
                let (bits, _) = W::rows(len, &None, |row| valid[place_of(row)]);
                let row_at = |row| if valid[place_of(row)] { items[place_of(row)] } else { 0 };
                (W::rows(len, &None, row_at).0, Some(bits))
            }
        };
        self.tell("rle", decoded, digest);
    }

    fn tell_sparse(&self) {
        let (len, count) = (self.rows, self.rows / SPARSE_STEP);
        let (items, valid) = (random(count), self.valid(count));
        let decoded = || {
            let mut rows = vec![VALUE; len];
            let mut bits = valid.as_ref().map(|_| vec![true; len]);
            for (place, value) in items.iter().enumerate() {
                let is_valid = valid.as_ref().is_none_or(|valid| valid[place]);
                rows[place * SPARSE_STEP] = if is_valid { *value } else { 0 };
                if let Some(bits) = &mut bits {
                    bits[place * SPARSE_STEP] = is_valid;
                }
            }
            (rows, bits)
        };
        self.tell("sparse", decoded, digest);
    }

    fn tell_all<W: Way>(&self) {
        self.tell_plain::<W>();
        self.tell_packed::<W>();
        self.tell_runs::<W>();
        self.tell_sparse();
    }
}

fn run(words: &[&str]) -> Option<()> {
    let [way, nulls, rows, repeats] = words else {
        return None;
    };
    let decoding = Decoding::parse(nulls, rows, repeats)?;
    match *way {
        "plain" => decoding.tell_all::<Plain>(),
        "unrolled" => decoding.tell_all::<Unrolled>(),
        _ => return None,
    }
    Some(())
}

fn main() -> ExitCode {
    let words: Vec<String> = env::args().skip(1).collect();
    match run(&words.iter().map(String::as_str).collect::<Vec<_>>()) {
        Some(()) => ExitCode::SUCCESS,
        None => {
            eprintln!("usage: decode plain|unrolled full|nulls ROWS REPEATS");
            ExitCode::from(2)
        }
    }
}
