//! Row functions of plain columns in plain Rust, timed on the rows that `vx_bench_rows` makes.
//!
//!     rows full|nulls ROWS REPEATS
//!
//! Writes a line for each function, as vx_bench_rows does: function, column, rows, the least processor time in microseconds, and
//! a digest of the answer. Columns with nulls have one in each tenth row, and beneath each a zero or an empty text. Each loop
//! allocates and writes what the function answers, validity included.

use std::env;
use std::hint::black_box;
use std::process::ExitCode;

#[allow(dead_code)]
#[macro_use]
#[path = "kernels.rs"]
mod kernels;

use kernels::{Integer, best_of, values};

const NULL_STEP: usize = 10;        // each tenth row is null
const ROW_BITS: u32 = 32;           // the bits of a row
const TEXT_BYTES: usize = 8;
const ASCII_BITS: u32 = 7;
const HUNDRED: u32 = 100;
const HALF: u64 = 1 << 31;          // the half of the rows' range, a quarter of it and three quarters
const QUARTER: u64 = 1 << 30;
const THREE_QUARTERS: u64 = 3 << 30;
const TEXT: &[u8] = b"@";           // half of the texts begin below it
const INFIX: &[u8] = b"ab";         // of the pattern `%ab%`
const DIGEST_FACTOR: u64 = 31;
const NONE: u64 = u64::MAX;         // the digest of no bounds

/// An integer type with its sums.
trait Row: Integer + Ord + Default {
    const LEAST: Self;
    const GREATEST: Self;

    /// The exact sum, where it fits 64 bits.
    fn sum(rows: impl Iterator<Item = Self>) -> Option<i128>;
}

impl Integer for i64 {
    const NAME: &'static str = "i64";
    const BITS: u32 = i64::BITS;

    #[inline(always)]
    fn to_bits(self) -> u64 {
        self as u64
    }

    #[inline(always)]
    fn from_low_bits(bits: u64) -> Self {
        bits as i64
    }
}

impl Row for i64 {
    const LEAST: Self = i64::MIN;
    const GREATEST: Self = i64::MAX;

    #[inline(always)]
    fn sum(rows: impl Iterator<Item = Self>) -> Option<i128> {
        let sum: i128 = rows.map(i128::from).sum();
        i64::try_from(sum).ok().map(i128::from)
    }
}

impl Row for u32 {
    const LEAST: Self = u32::MIN;
    const GREATEST: Self = u32::MAX;

    /// No column has 2^32 rows.
    #[inline(always)]
    fn sum(rows: impl Iterator<Item = Self>) -> Option<i128> {
        Some(i128::from(rows.map(u64::from).sum::<u64>()))
    }
}

// ---------------------------------------------------------------------------------------------
// columns

/// Validity, where there are nulls.
type Valid = Option<Vec<bool>>;

/// A plain column.
struct Column<T> {
    rows: Vec<T>,
    valid: Valid,
}

impl<T: Default> Column<T> {
    /// The rows, with the type's default beneath nulls.
    fn plain(mut rows: Vec<T>, valid: Valid) -> Self {
        for (row, valid) in rows.iter_mut().zip(valid.iter().flatten()) {
            if !valid {
                *row = T::default();
            }
        }
        Column { rows, valid }
    }
}

/// False in each tenth row.
fn each_tenth_null(len: usize) -> Vec<bool> {
    (1..=len).map(|row| row % NULL_STEP != 0).collect()
}

/// Random bits, of which `percent` of a hundred are true.
fn chosen(len: usize, percent: u32) -> Vec<bool> {
    values::<u32>(len, ROW_BITS).into_iter().map(|number| number % HUNDRED < percent).collect()
}

/// Random numbers of rows.
fn places(len: usize, rows: usize) -> Vec<u64> {
    values::<u64>(len, ROW_BITS).into_iter().map(|number| number * rows as u64 >> ROW_BITS).collect()
}

/// Texts of `TEXT_BYTES` bytes each.
fn texts(len: usize) -> Vec<Vec<u8>> {
    let bytes: Vec<u8> = values(len * TEXT_BYTES, ASCII_BITS);
    bytes.chunks_exact(TEXT_BYTES).map(<[u8]>::to_vec).collect()
}

// ---------------------------------------------------------------------------------------------
// functions

/// The items whose bit is true, without a branch: each is written behind those before it, and the next one over it unless
/// its bit is true. A branch costs as much where 1 or 99 % of the bits are true, and more in between.
fn kept<T: Copy + Default>(items: &[T], keep: &[bool], count: usize) -> Vec<T> {
    let mut out = vec![T::default(); count + 1];
    let mut place = 0;
    for (item, keep) in items.iter().zip(keep) {
        out[place] = *item;
        place += usize::from(*keep);
    }
    out.truncate(count);
    out
}

fn true_count(bits: &[bool]) -> usize {
    bits.iter().map(|bit| usize::from(*bit)).sum()
}

fn filter<T: Copy + Default>(column: &Column<T>, keep: &[bool]) -> Column<T> {
    let count = true_count(keep);
    let valid = column.valid.as_ref().map(|valid| kept(valid, keep, count));
    Column { rows: kept(&column.rows, keep, count), valid }
}

fn slice<T: Copy>(column: &Column<T>, start: usize, end: usize) -> Column<T> {
    Column { rows: column.rows[start..end].to_vec(), valid: column.valid.as_ref().map(|valid| valid[start..end].to_vec()) }
}

fn take<T: Copy>(column: &Column<T>, indices: &[u64]) -> Column<T> {
    let valid = column.valid.as_ref().map(|valid| indices.iter().map(|index| valid[*index as usize]).collect());
    Column { rows: indices.iter().map(|index| column.rows[*index as usize]).collect(), valid }
}

fn mask<T: Copy + Default>(column: &Column<T>, keep: &[bool]) -> Column<T> {
    let valid: Vec<bool> = match &column.valid {
        Some(valid) => valid.iter().zip(keep).map(|(valid, keep)| *valid & *keep).collect(),
        None => keep.to_vec(),
    };
    let rows = column.rows.iter().zip(&valid).map(|(row, valid)| if *valid { *row } else { T::default() }).collect();
    Column { rows, valid: Some(valid) }
}

/// Whether each row has a property. Beneath nulls stands whether the default has it, as in the function's answer.
fn truths<T>(column: &Column<T>, has: impl Fn(&T) -> bool) -> Column<bool> {
    Column { rows: column.rows.iter().map(has).collect(), valid: column.valid.clone() }
}

fn sum<T: Row>(column: &Column<T>) -> Option<i128> {
    match &column.valid {
        None => T::sum(column.rows.iter().copied()),
        Some(valid) => T::sum(column.rows.iter().zip(valid).map(|(row, valid)| if *valid { *row } else { T::default() })),
    }
}

fn min_max<T: Row>(column: &Column<T>) -> Option<(T, T)> {
    let wider = |(least, greatest): (T, T), (low, high): (T, T)| (least.min(low), greatest.max(high));
    let none = (T::GREATEST, T::LEAST);
    let (least, greatest) = match &column.valid {
        None => column.rows.iter().map(|row| (*row, *row)).fold(none, wider),
        Some(valid) => column.rows.iter().zip(valid).map(|(row, valid)| if *valid { (*row, *row) } else { none }).fold(none, wider),
    };
    (least <= greatest).then_some((least, greatest))
}

/// Texts have a heap block each, so those that are kept are copied one by one.
fn filter_texts(column: &Column<Vec<u8>>, keep: &[bool]) -> Column<Vec<u8>> {
    let count = true_count(keep);
    let mut rows = Vec::with_capacity(count);
    rows.extend(column.rows.iter().zip(keep).filter(|(_, keep)| **keep).map(|(row, _)| row.clone()));
    Column { rows, valid: column.valid.as_ref().map(|valid| kept(valid, keep, count)) }
}

/// Whether each text has a property; false beneath nulls, which are not looked at.
fn truths_of_texts(column: &Column<Vec<u8>>, has: impl Fn(&[u8]) -> bool) -> Column<bool> {
    let rows = match &column.valid {
        None => column.rows.iter().map(|text| has(text)).collect(),
        Some(valid) => column.rows.iter().zip(valid).map(|(text, valid)| *valid && has(text)).collect(),
    };
    Column { rows, valid: column.valid.clone() }
}

fn has_infix(text: &[u8]) -> bool {
    text.windows(INFIX.len()).any(|part| part == INFIX)
}

// ---------------------------------------------------------------------------------------------
// digests

fn with(sum: u64, item: u64) -> u64 {
    sum.wrapping_mul(DIGEST_FACTOR).wrapping_add(item)
}

/// Of each row what `of` adds, which is told whether the row is valid, and then a 1, or a 0 of a null.
fn digest_of<T>(column: &Column<T>, of: impl Fn(u64, &T, bool) -> u64) -> u64 {
    let is_valid = |row: usize| column.valid.as_ref().is_none_or(|valid| valid[row]);
    let with_row = |sum, (row, item): (usize, &T)| with(of(sum, item, is_valid(row)), u64::from(is_valid(row)));
    column.rows.iter().enumerate().fold(0, with_row)
}

fn digest_of_integers<T: Integer>(column: &Column<T>) -> u64 {
    digest_of(column, |sum, item, _| with(sum, item.to_bits()))
}

/// Truth values beneath nulls count as false.
fn digest_of_truths(column: &Column<bool>) -> u64 {
    digest_of(column, |sum, truth, is_valid| with(sum, u64::from(*truth & is_valid)))
}

fn with_bytes(sum: u64, bytes: &[u8]) -> u64 {
    bytes.iter().fold(sum, |sum, byte| with(sum, u64::from(*byte)))
}

fn digest_of_texts(column: &Column<Vec<u8>>) -> u64 {
    digest_of(column, |sum, text, _| with_bytes(sum, text))
}

/// Of a sum the bytes of its JSON.
fn digest_of_sum(sum: &Option<i128>) -> u64 {
    with_bytes(0, sum.map_or("null".to_string(), |sum| sum.to_string()).as_bytes())
}

/// Of bounds the bytes of their JSON. Rows are no more than 32 bits wide, so their bits are their value.
fn digest_of_bounds<T: Integer>(bounds: &Option<(T, T)>) -> u64 {
    match bounds {
        Some((least, greatest)) => with_bytes(0, format!("{}{}", least.to_bits(), greatest.to_bits()).as_bytes()),
        None => NONE,
    }
}

// ---------------------------------------------------------------------------------------------
// telling

/// What is asked for.
struct Asked {
    nulls: bool,
    rows: usize,
    repeats: u32,
}

impl Asked {
    fn parse(nulls: &str, rows: &str, repeats: &str) -> Option<Self> {
        let nulls = ["full", "nulls"].iter().position(|word| *word == nulls)? == 1;
        Some(Asked { nulls, rows: rows.parse().ok()?, repeats: repeats.parse().ok()? })
    }

    fn valid(&self) -> Valid {
        self.nulls.then(|| each_tenth_null(self.rows))
    }

    /// Times a function of a column, and writes its line.
    fn tell<C, A>(&self, name: &str, column_name: &str, column: &C, function: impl Fn(&C) -> A, digest: impl Fn(&A) -> u64) {
        let (best, answer) = best_of(self.repeats, || function(black_box(column)));
        println!("{name} {column_name} {} {best} {}", self.rows, digest(&answer));
    }

    fn tell_integers<T: Row>(&self) {
        let column = Column::plain(values::<T>(self.rows, ROW_BITS), self.valid());
        self.tell_choices(&column);
        self.tell_looks(&column);
    }

    fn tell_choices<T: Row>(&self, column: &Column<T>) {
        for (name, percent) in [("filter-1", 1), ("filter-50", 50), ("filter-99", 99)] {
            let keep = chosen(self.rows, percent);
            self.tell(name, T::NAME, column, |column| filter(column, &keep), digest_of_integers);
        }
        let (start, end) = (self.rows / 4, self.rows - self.rows / 4);
        self.tell("slice", T::NAME, column, |column| slice(column, start, end), digest_of_integers);
        let indices = places(self.rows / 2, self.rows);
        self.tell("take", T::NAME, column, |column| take(column, &indices), digest_of_integers);
        let half = chosen(self.rows, 50);
        self.tell("mask", T::NAME, column, |column| mask(column, &half), digest_of_integers);
    }

    fn tell_looks<T: Row>(&self, column: &Column<T>) {
        let middle = T::from_low_bits(HALF);
        self.tell("compare", T::NAME, column, |column| truths(column, |row| *row < middle), digest_of_truths);
        let (low, high) = (T::from_low_bits(QUARTER), T::from_low_bits(THREE_QUARTERS));
        self.tell("between", T::NAME, column, |column| truths(column, |row| (low <= *row) & (*row < high)), digest_of_truths);
        self.tell("sum", T::NAME, column, sum, digest_of_sum);
        self.tell("min_max", T::NAME, column, min_max, digest_of_bounds);
    }

    fn tell_texts(&self) {
        let column = Column::plain(texts(self.rows), self.valid());
        let half = chosen(self.rows, 50);
        self.tell("filter-50", "text", &column, |column| filter_texts(column, &half), digest_of_texts);
        self.tell("compare", "text", &column, |column| truths_of_texts(column, |text| text < TEXT), digest_of_truths);
        self.tell("like", "text", &column, |column| truths_of_texts(column, has_infix), digest_of_truths);
    }
}

fn run(words: &[&str]) -> Option<()> {
    let [nulls, rows, repeats] = words else {
        return None;
    };
    let asked = Asked::parse(nulls, rows, repeats)?;
    asked.tell_integers::<i64>();
    asked.tell_integers::<u32>();
    asked.tell_texts();
    Some(())
}

fn main() -> ExitCode {
    let words: Vec<String> = env::args().skip(1).collect();
    match run(&words.iter().map(String::as_str).collect::<Vec<_>>()) {
        Some(()) => ExitCode::SUCCESS,
        None => {
            eprintln!("usage: rows full|nulls ROWS REPEATS");
            ExitCode::from(2)
        }
    }
}
