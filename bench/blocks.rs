//! The kernels of packing at a width for each block of 1,024 rows, and those of columns.rs, in plain Rust and in hand-unrolled
//! Rust, timed on the rows that `vx_bench kernels` makes.
//!
//!     blocks plain|unrolled u8|u32|u64|i64 WIDTH ROWS REPEATS
//!
//! Writes lines as kernels.rs does, from which the rows, the clock and the loops within a block are.

use std::env;
use std::process::ExitCode;

mod columns;
#[macro_use]
#[allow(dead_code)]
#[path = "kernels.rs"]
mod kernels;

use columns::{Columns, MOST_BITS};
use kernels::{
    BLOCK_ROWS, GROUP, Integer, Kernels, Plain, SERIES_WIDTH, Setting, Unrolled, fitting_group, pack_group, unpack_group,
    values,
};

/// The kernels of blocks, written in one way.
trait Blocks {
    /// The narrowest of the cheapest widths of each block.
    fn widths<T: Integer>(values: &[T], valid: &[bool]) -> Vec<u64>;

    /// The rows of each block at its width, one block after the other.
    fn pack_blocks<T: Integer>(values: &[T], valid: &[bool], widths: &[u64]) -> Vec<u8>;

    /// The first rows of the packed bytes. Block b begins at byte 128 * `offsets[b]` and ends where the next one begins.
    fn unpack_blocks<T: Integer>(packed: &[u8], offsets: &[u64], rows: usize) -> Vec<T>;
}

/// The bytes of a block for each bit of its width.
const BYTES_PER_BIT: usize = BLOCK_ROWS / 8;

/// The width at which the packed rows take the fewest bytes, with those of a value and 4 of an index for each row that is
/// wider. Entry w of the counts is the number of rows of w binary digits.
fn best_width<T: Integer>(counts: &[u64]) -> u64 {
    let each = T::BITS as u64 / 8 + 4;
    let rows: u64 = counts.iter().sum();
    let (mut wider, mut best, mut least) = (rows, 0, u64::MAX);
    for (width, count) in counts.iter().enumerate() {
        wider -= count;
        let cost = (width as u64 * rows).div_ceil(8) + wider * each;
        if cost < least {
            (best, least) = (width as u64, cost);
        }
    }
    best
}

/// Where each block begins, in units of 128 bytes, and where the last one ends.
fn offsets_of(widths: &[u64]) -> Vec<u64> {
    let mut offsets = vec![0];
    let mut end = 0;
    for width in widths {
        end += width;
        offsets.push(end);
    }
    offsets
}

/// The rows and validity of each block.
fn blocks_of<'a, T>(values: &'a [T], valid: &'a [bool]) -> impl Iterator<Item = (&'a [T], &'a [bool])> {
    values.chunks(BLOCK_ROWS).zip(valid.chunks(BLOCK_ROWS))
}

/// The bytes and the width of each block.
fn packed_blocks<'a>(packed: &'a [u8], offsets: &'a [u64]) -> impl Iterator<Item = (&'a [u8], u32)> {
    offsets.windows(2).map(|ends| {
        let bytes = &packed[BYTES_PER_BIT * ends[0] as usize..BYTES_PER_BIT * ends[1] as usize];
        (bytes, (ends[1] - ends[0]) as u32)
    })
}

/// Calls the loops row by row for each block.
impl Blocks for Plain {
    #[inline(never)]
    fn widths<T: Integer>(values: &[T], valid: &[bool]) -> Vec<u64> {
        blocks_of(values, valid).map(|(values, valid)| best_width::<T>(&Plain::histogram(values, valid))).collect()
    }

    #[inline(never)]
    fn pack_blocks<T: Integer>(values: &[T], valid: &[bool], widths: &[u64]) -> Vec<u8> {
        let mut out = Vec::with_capacity(BYTES_PER_BIT * widths.iter().sum::<u64>() as usize);
        for ((values, valid), width) in blocks_of(values, valid).zip(widths) {
            out.extend_from_slice(&Plain::pack(values, valid, *width as u32));
        }
        out
    }

    #[inline(never)]
    fn unpack_blocks<T: Integer>(packed: &[u8], offsets: &[u64], rows: usize) -> Vec<T> {
        let mut out = Vec::with_capacity(rows);
        for (packed, width) in packed_blocks(packed, offsets) {
            let count = BLOCK_ROWS.min(rows - out.len());
            out.extend_from_slice(&Plain::unpack::<T>(packed, width, count));
        }
        out
    }
}

/// Packs and unpacks in place, 64 rows at a time.
impl Blocks for Unrolled {
    #[inline(never)]
    fn widths<T: Integer>(values: &[T], valid: &[bool]) -> Vec<u64> {
        blocks_of(values, valid).map(|(values, valid)| best_width::<T>(&Unrolled::histogram(values, valid))).collect()
    }

    #[inline(never)]
    fn pack_blocks<T: Integer>(values: &[T], valid: &[bool], widths: &[u64]) -> Vec<u8> {
        let mut out = vec![0; BYTES_PER_BIT * widths.iter().sum::<u64>() as usize];
        let mut rest = out.as_mut_slice();
        for ((values, valid), width) in blocks_of(values, valid).zip(widths) {
            let block = rest.split_off_mut(..BYTES_PER_BIT * *width as usize).unwrap();
            by_width!(width, write_groups::<T>(values, valid, block));
        }
        out
    }

    #[inline(never)]
    fn unpack_blocks<T: Integer>(packed: &[u8], offsets: &[u64], rows: usize) -> Vec<T> {
        let mut out = Vec::with_capacity(rows);
        for (packed, width) in packed_blocks(packed, offsets) {
            let count = BLOCK_ROWS.min(rows - out.len());
            by_width!(width, read_groups::<T>(packed, count, &mut out));
        }
        out
    }
}

/// Packs the rows into a block's bytes.
fn write_groups<T: Integer, const W: usize>(values: &[T], valid: &[bool], out: &mut [u8]) {
    let groups = values.chunks(GROUP).zip(valid.chunks(GROUP));
    for ((values, valid), out) in groups.zip(out.chunks_exact_mut(8 * W)) {
        pack_group::<W>(&fitting_group::<T, W>(values, valid), out);
    }
}

/// Appends the first rows of a block.
fn read_groups<T: Integer, const W: usize>(packed: &[u8], rows: usize, out: &mut Vec<T>) {
    let end = out.len() + rows;
    for packed in packed.chunks_exact(8 * W).take(rows.div_ceil(GROUP)) {
        let group = unpack_group::<T, W>(packed);
        let len = GROUP.min(end - out.len());
        out.extend_from_slice(&group[..len]);
    }
}

/// Times the kernels of blocks on rows of a type, and those of frames.
fn time_all<K: Blocks + Columns, T: Integer>(on: &Setting) {
    let values = &values::<T>(on.rows, on.width);
    let valid = &vec![true; on.rows];
    let widths = on.time::<T, u64>("widths", || K::widths(values, valid));
    let packed = on.time::<T, u8>("pack_v2", || K::pack_blocks(values, valid, &widths));
    let offsets = offsets_of(&widths);
    on.time::<T, T>("canonical_v2", || K::unpack_blocks(&packed, &offsets, on.rows));
    if on.width == SERIES_WIDTH {
        columns::time_frames::<K, T>(on, values);
    }
}

/// Times all kernels on rows of a type. False where there is no such type, or it hasn't the width.
fn time_type<K: Blocks + Columns>(on: &Setting, name: &str) -> bool {
    match name {
        "u8" if (1..=8).contains(&on.width) => time_all::<K, u8>(on),
        "u32" if (1..=32).contains(&on.width) => time_all::<K, u32>(on),
        "u64" if (1..=64).contains(&on.width) => time_all::<K, u64>(on),
        "i64" if (1..=MOST_BITS).contains(&on.width) => columns::time_parts::<K>(on),
        _ => return false,
    }
    true
}

/// Times what the arguments ask for. False where they ask for nothing known.
fn run(words: &[&str]) -> bool {
    let [way, name, width, rows, repeats] = words else {
        return false;
    };
    let Some(setting) = Setting::parse(width, rows, repeats) else {
        return false;
    };
    match *way {
        "plain" => time_type::<Plain>(&setting, name),
        "unrolled" => time_type::<Unrolled>(&setting, name),
        _ => false,
    }
}

fn main() -> ExitCode {
    let words: Vec<String> = env::args().skip(1).collect();
    if run(&words.iter().map(String::as_str).collect::<Vec<_>>()) {
        ExitCode::SUCCESS
    } else {
        eprintln!("usage: blocks plain|unrolled u8|u32|u64|i64 WIDTH ROWS REPEATS");
        ExitCode::from(2)
    }
}
