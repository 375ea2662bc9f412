//! One copy of a document's plain column in plain Rust, timed beside the phase `compress` of `vx_bench compress`.
//!
//!     copies < document
//!
//! One line: `copy` and its milliseconds by the clock. The document is one of bench/run's: a flat list of truth values, of
//! timestamps, of texts without an escape, or of binaries as their digits, which may be nullable.

use std::hint::black_box;
use std::io::{self, Read};
use std::process::ExitCode;
use std::time::Instant;

/// Copies the rows, and once more by the clock, and tells.
fn tell<T: Clone>(rows: Option<Vec<T>>) -> Option<()> {
    let rows = rows?;
    black_box(rows.clone());
    let start = Instant::now();
    let copy = black_box(rows.clone());
    let time = start.elapsed();
    drop(copy);
    println!("copy {:.3}", time.as_secs_f64() * 1000.0);
    Some(())
}

/// `tell` of rows that are read one by one; nulls among them where the type is nullable.
fn tell_rows<'a, T: Clone>(
    rows: impl Iterator<Item = &'a str>,
    nullable: bool,
    read: impl Fn(&'a str) -> Option<T>,
) -> Option<()> {
    if !nullable {
        return tell(rows.map(read).collect());
    }
    let or_null = |row| if row == "null" { Some(None) } else { read(row).map(Some) };
    tell::<Option<T>>(rows.map(or_null).collect())
}

/// The text within quotes.
fn unquoted(row: &str) -> Option<&str> {
    row.strip_prefix('"')?.strip_suffix('"')
}

fn bytes_of(digits: &str) -> Option<Vec<u8>> {
    (0..digits.len())
        .step_by(2)
        .map(|place| u8::from_str_radix(digits.get(place..place + 2)?, 16).ok())
        .collect()
}

/// The text behind `key` and up to `end`.
fn between<'a>(text: &'a str, key: &str, end: char) -> Option<&'a str> {
    let (_, rest) = text.split_once(key)?;
    rest.split_once(end).map(|(found, _)| found)
}

fn told(text: &str) -> Option<()> {
    let rows = between(text, "\"rows\":[", ']')?.split(',');
    let named = between(text, "\"type\":\"", '"')?;
    let nullable = named.ends_with('?');
    match named.trim_end_matches('?').split(' ').next()? {
        "bool" => tell_rows(rows, nullable, |row| row.parse::<bool>().ok()),
        "timestamp" => tell_rows(rows, nullable, |row| row.parse::<i64>().ok()),
        "text" => tell_rows(rows, nullable, |row| unquoted(row).map(String::from)),
        "binary" => tell_rows(rows, nullable, |row| bytes_of(unquoted(row)?)),
        _ => None,
    }
}

fn main() -> ExitCode {
    let mut text = String::new();
    match io::stdin().read_to_string(&mut text).ok().and_then(|_| told(&text)) {
        Some(()) => ExitCode::SUCCESS,
        None => ExitCode::FAILURE,
    }
}
