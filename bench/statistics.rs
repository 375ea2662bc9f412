//! The distinct values of a document's column in plain Rust, sorted and counted, timed beside the statistics of
//! `vx_bench compress`.
//!
//!     statistics < document
//!
//! Two lines: `statistics` and its milliseconds by the clock, `distinct` and how many distinct values there are. The
//! document is one of bench/run's: a flat list of whole numbers and nulls.

use std::hint::black_box;
use std::io::{self, Read};
use std::process::ExitCode;
use std::str::FromStr;
use std::time::Instant;

/// The distinct values, ascending, each with how often it occurs.
fn sorted_and_counted<T: Copy + Ord>(rows: &[Option<T>]) -> Vec<(T, u32)> {
    let mut values: Vec<T> = rows.iter().flatten().copied().collect();
    values.sort_unstable();
    let mut counts: Vec<(T, u32)> = Vec::new();
    for value in values {
        match counts.last_mut() {
            Some((last, count)) if *last == value => *count += 1,
            _ => counts.push((value, 1)),
        }
    }
    counts
}

/// The rows between the brackets, null as None.
fn rows_of<T: FromStr>(text: &str) -> Option<Vec<Option<T>>> {
    text.split(',')
        .map(|row| match row {
            "null" => Some(None),
            digits => digits.parse().ok().map(Some),
        })
        .collect()
}

/// Counts the rows of one type, and once more by the clock, and tells.
fn tell<T: FromStr + Copy + Ord>(text: &str) -> Option<()> {
    let rows = rows_of::<T>(text)?;
    black_box(sorted_and_counted(&rows));
    let start = Instant::now();
    let counts = sorted_and_counted(&rows);
    let time = start.elapsed();
    println!("statistics {:.3}", time.as_secs_f64() * 1000.0);
    println!("distinct {}", counts.len());
    Some(())
}

/// The text behind `key` and up to `end`.
fn between<'a>(text: &'a str, key: &str, end: char) -> Option<&'a str> {
    let (_, rest) = text.split_once(key)?;
    rest.split_once(end).map(|(found, _)| found)
}

fn told(text: &str) -> Option<()> {
    let rows = between(text, "\"rows\":[", ']')?;
    match between(text, "\"type\":\"", '"')?.trim_end_matches('?') {
        "u32" => tell::<u32>(rows),
        "i32" => tell::<i32>(rows),
        "u64" => tell::<u64>(rows),
        "i64" => tell::<i64>(rows),
        _ => None,
    }
}

fn main() -> ExitCode {
    let mut text = String::new();
    match io::stdin().read_to_string(&mut text).ok().and_then(|_| told(&text)) {
        Some(()) => ExitCode::SUCCESS,
        None => ExitCode::FAILURE,
    }
}
