//! The files that `vx_bench files` writes, made in plain Rust from the format, and one copy of their bytes by the clock.
//!
//!     files packed|plain|pieces|texts ROWS REPEATS
//!
//! Writes one line: `copy`, the tree, its rows, the least processor time in microseconds, the bytes of the file, and their digest.

use std::env;
use std::process::ExitCode;

#[allow(dead_code)]
#[macro_use]
#[path = "kernels.rs"]
mod kernels;

use kernels::{Kernels, Plain, best_of, digest, values};

const WIDTH: u32 = 12;              // the bits of packed rows
const WIDE: u32 = 63;               // those of plain ones
const TEXT_BYTES: usize = 8;
const ASCII_BITS: u32 = 7;          // of a byte of texts

// The places of nodes in the format's list, the numbers of types, and what isn't there.
const PRIMITIVE: u8 = 2;
const VARBINVIEW: u8 = 3;
const VARBIN: u8 = 11;
const BITPACKED: u8 = 15;
const U64: u8 = 3;
const TEXT: u8 = 3;
const NO: u8 = 0;

/// A number, seven bits a byte from the least on.
fn put_number(out: &mut Vec<u8>, mut number: u64) {
    while number >= 128 {
        out.push(number as u8 | 128);
        number >>= 7;
    }
    out.push(number as u8);
}

fn put_plain(out: &mut Vec<u8>, rows: &[u64]) {
    out.extend([PRIMITIVE, U64, NO]);
    put_number(out, rows.len() as u64);
    rows.iter().for_each(|row| out.extend(row.to_le_bytes()));
    out.push(NO);
}

fn put_packed(out: &mut Vec<u8>, rows: usize) {
    out.extend([BITPACKED, U64, NO, WIDTH as u8]);
    put_number(out, rows as u64);
    out.extend(Plain::pack(&values::<u64>(rows, WIDTH), &vec![true; rows], WIDTH));
    out.extend([NO, NO]);
}

fn put_pieces(out: &mut Vec<u8>, rows: usize) {
    out.extend([VARBIN, TEXT, NO]);
    put_plain(out, &(0..=rows).map(|row| (row * TEXT_BYTES) as u64).collect::<Vec<_>>());
    put_number(out, (rows * TEXT_BYTES) as u64);
    out.extend(values::<u8>(rows * TEXT_BYTES, ASCII_BITS));
    out.push(NO);
}

fn put_texts(out: &mut Vec<u8>, rows: usize) {
    out.extend([VARBINVIEW, TEXT, NO]);
    put_number(out, rows as u64);
    for text in values::<u8>(rows * TEXT_BYTES, ASCII_BITS).chunks(TEXT_BYTES) {
        put_number(out, text.len() as u64);
        out.extend(text);
    }
    out.push(NO);
}

/// The file of a tree.
fn file(name: &str, rows: usize) -> Option<Vec<u8>> {
    let (mut tree, mut out) = (Vec::new(), b"VXTREES1\x01".to_vec());
    match name {
        "packed" => put_packed(&mut tree, rows),
        "plain" => put_plain(&mut tree, &values::<u64>(rows, WIDE)),
        "pieces" => put_pieces(&mut tree, rows),
        "texts" => put_texts(&mut tree, rows),
        _ => return None,
    }
    put_number(&mut out, tree.len() as u64);
    out.extend(tree);
    Some(out)
}

fn run(words: &[&str]) -> Option<()> {
    let [name, rows, repeats] = words else {
        return None;
    };
    let (rows, repeats) = (rows.parse().ok()?, repeats.parse().ok()?);
    let file = file(name, rows)?;
    let (best, copy) = best_of(repeats, || file.clone());
    println!("copy {name} {rows} {best} {} {}", copy.len(), digest(&copy));
    Some(())
}

fn main() -> ExitCode {
    let words: Vec<String> = env::args().skip(1).collect();
    match run(&words.iter().map(String::as_str).collect::<Vec<_>>()) {
        Some(()) => ExitCode::SUCCESS,
        None => {
            eprintln!("usage: files packed|plain|pieces|texts ROWS REPEATS");
            ExitCode::from(2)
        }
    }
}
