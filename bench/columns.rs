//! The kernels of whole columns: frames of reference and timestamps in parts.

use crate::kernels::{BLOCK_ROWS, Integer, Plain, Setting, Unrolled, values};

/// The kernels of columns, written in one way.
pub trait Columns {
    /// The reference plus each difference, modulo the type's range.
    fn frame<T: Integer>(reference: T, differences: &[T]) -> Vec<T>;

    /// The reference of its block plus each difference, modulo the type's range.
    fn frames<T: Integer>(references: &[T], differences: &[T]) -> Vec<T>;

    /// The timestamps of days, seconds and microseconds.
    fn sums(parts: &Parts) -> Vec<i64>;
}

/// The widest timestamps: 2^52 microseconds are 52,124 days, so that days fit 16 bits, and 2^53 are twice as many.
pub const MOST_BITS: u32 = 52;

/// The microseconds of a second, and the seconds of a day.
const SECOND: u64 = 1_000_000;
const DAY: u64 = 86_400;

/// Days, seconds and subseconds, each of the narrowest type that holds its rows.
pub struct Parts {
    days: Vec<u16>,
    seconds: Vec<u32>,
    subseconds: Vec<u32>,
}

impl Parts {
    /// The parts of timestamps of `width` bits.
    fn of_width(rows: usize, width: u32) -> Self {
        let times = values::<u64>(rows, width);
        Parts {
            days: times.iter().map(|time| (time / SECOND / DAY) as u16).collect(),
            seconds: times.iter().map(|time| (time / SECOND % DAY) as u32).collect(),
            subseconds: times.iter().map(|time| (time % SECOND) as u32).collect(),
        }
    }
}

/// days * 86,400 * 10^6 + seconds * 10^6 + subseconds.
#[inline(always)]
fn sum_of((day, (second, subsecond)): (&u16, (&u32, &u32))) -> i64 {
    (*day as u64 * (DAY * SECOND) + *second as u64 * SECOND + *subsecond as u64) as i64
}

#[inline(always)]
fn plus<T: Integer>(reference: T, difference: &T) -> T {
    T::from_low_bits(reference.to_bits().wrapping_add(difference.to_bits()))
}

impl Columns for Plain {
    #[inline(never)]
    fn frame<T: Integer>(reference: T, differences: &[T]) -> Vec<T> {
        differences.iter().map(|difference| plus(reference, difference)).collect()
    }

    #[inline(never)]
    fn frames<T: Integer>(references: &[T], differences: &[T]) -> Vec<T> {
        let rows = differences.iter().enumerate();
        rows.map(|(row, difference)| plus(references[row / BLOCK_ROWS], difference)).collect()
    }

    #[inline(never)]
    fn sums(parts: &Parts) -> Vec<i64> {
        let Parts { days, seconds, subseconds } = parts;
        days.iter().zip(seconds.iter().zip(subseconds)).map(sum_of).collect()
    }
}

/// A block at a time, in which no row asks for its reference or for room, so that the compiler adds up several rows at once.
/// Rows in groups of eight, unrolled by hand, take longer.
impl Columns for Unrolled {
    #[inline(never)]
    fn frame<T: Integer>(reference: T, differences: &[T]) -> Vec<T> {
        let mut rows = Vec::with_capacity(differences.len());
        for differences in differences.chunks(BLOCK_ROWS) {
            rows.extend(differences.iter().map(|difference| plus(reference, difference)));
        }
        rows
    }

    #[inline(never)]
    fn frames<T: Integer>(references: &[T], differences: &[T]) -> Vec<T> {
        let mut rows = Vec::with_capacity(differences.len());
        for (reference, differences) in references.iter().zip(differences.chunks(BLOCK_ROWS)) {
            rows.extend(differences.iter().map(|difference| plus(*reference, difference)));
        }
        rows
    }

    #[inline(never)]
    fn sums(parts: &Parts) -> Vec<i64> {
        let mut rows = Vec::with_capacity(parts.days.len());
        let times = parts.seconds.chunks(BLOCK_ROWS).zip(parts.subseconds.chunks(BLOCK_ROWS));
        for (days, (seconds, subseconds)) in parts.days.chunks(BLOCK_ROWS).zip(times) {
            rows.extend(days.iter().zip(seconds.iter().zip(subseconds)).map(sum_of));
        }
        rows
    }
}

/// The least row of each block of `size` rows, and each row less the least one of its block.
fn frames_of<T: Integer>(rows: &[T], size: usize) -> (Vec<T>, Vec<T>) {
    let (mut references, mut differences) = (Vec::new(), Vec::with_capacity(rows.len()));
    for block in rows.chunks(size) {
        let least = block.iter().fold(u64::MAX, |least, row| least.min(row.to_bits()));
        references.push(T::from_low_bits(least));
        differences.extend(block.iter().map(|row| T::from_low_bits(row.to_bits() - least)));
    }
    (references, differences)
}

/// Times the decoding of the same rows with one reference, and with one for each block.
pub fn time_frames<K: Columns, T: Integer>(on: &Setting, rows: &[T]) {
    let (references, differences) = frames_of(rows, rows.len().max(1));
    if let Some(reference) = references.first() {
        on.time::<T, T>("frame", || K::frame(*reference, &differences));
    }
    let (references, differences) = frames_of(rows, BLOCK_ROWS);
    on.time::<T, T>("frame_v2", || K::frames(&references, &differences));
}

/// A timestamp, by the bits of its two's complement.
impl Integer for i64 {
    const NAME: &'static str = "i64";
    const BITS: u32 = i64::BITS;

    #[inline(always)]
    fn to_bits(self) -> u64 {
        self as u64
    }

    #[inline(always)]
    fn from_low_bits(bits: u64) -> Self {
        bits as i64
    }
}

/// Times the sums of parts.
pub fn time_parts<K: Columns>(on: &Setting) {
    let parts = Parts::of_width(on.rows, on.width);
    on.time::<i64, i64>("parts", || K::sums(&parts));
}
