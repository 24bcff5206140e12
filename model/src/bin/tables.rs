//! `tables SEED COUNT [FIRST]` writes random tables of calls, one behind the other, from number FIRST (0) on.

use std::io::{self, Write};
use std::process::ExitCode;

fn main() -> ExitCode {
    let numbers: Option<Vec<u64>> = std::env::args().skip(1).map(|word| word.parse().ok()).collect();
    let (seed, count, first) = match numbers.as_deref() {
        Some(&[seed, count]) => (seed, count, 0),
        Some(&[seed, count, first]) => (seed, count, first),
        _ => {
            eprintln!("usage: tables SEED COUNT [FIRST]");
            return ExitCode::from(2);
        }
    };
    let mut out = io::stdout().lock();
    for place in first..first + count {
        if out.write_all(&model::tables::table(seed, place)).is_err() {
            return ExitCode::FAILURE;
        }
    }
    ExitCode::SUCCESS
}
