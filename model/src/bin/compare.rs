//! `compare PROGRAM SEED COUNT` puts random tables of calls to a program and to the model, up to the first difference.

use std::io::{self, Write};
use std::process::{Command, ExitCode, Stdio};

use model::{table, tables};

/// What a program prints for an input, and whether it ended well.
fn run(program: &str, input: Vec<u8>) -> io::Result<(Vec<u8>, bool)> {
    let mut child = Command::new(program).stdin(Stdio::piped()).stdout(Stdio::piped()).spawn()?;
    let mut stdin = child.stdin.take().expect("standard input is piped");
    // The program may print before it has read everything; if it stops reading, its output tells.
    let feeder = std::thread::spawn(move || stdin.write_all(&input).is_ok());
    let output = child.wait_with_output()?;
    let fed = feeder.join().unwrap_or(false);
    Ok((output.stdout, output.status.success() && fed))
}

/// The first line in which two outputs differ.
fn difference(model: &[u8], program: &[u8]) -> Option<(usize, String, String)> {
    let mut ours = model.split(|&byte| byte == b'\n');
    let mut theirs = program.split(|&byte| byte == b'\n');
    let mut line = 0;
    loop {
        line += 1;
        match (ours.next(), theirs.next()) {
            (None, None) => return None,
            (one, other) if one == other => {}
            (one, other) => return Some((line, shown(one), shown(other))),
        }
    }
}

fn shown(line: Option<&[u8]>) -> String {
    line.map_or("(nothing)".to_string(), |bytes| bytes.escape_ascii().to_string())
}

/// Compares one table; gives its lines, or says how the program differs.
fn compare(program: &str, seed: u64, place: u64) -> Result<usize, String> {
    let input = tables::table(seed, place);
    let expected = table::printed(&input);
    let lines = input.iter().filter(|&&byte| byte == b'\n').count();
    let (printed, ended_well) = run(program, input).map_err(|error| format!("{program}: {error}"))?;
    if let Some((line, ours, theirs)) = difference(&expected, &printed) {
        return Err(format!("seed {seed}, table {place}, line {line}\nmodel:   {ours}\nprogram: {theirs}"));
    }
    if !ended_well {
        return Err(format!("seed {seed}, table {place}: all lines agree, but the program did not end well"));
    }
    Ok(lines)
}

fn main() -> ExitCode {
    let words: Vec<String> = std::env::args().skip(1).collect();
    let (program, seed, count) = match words.as_slice() {
        [program, seed, count] => (program, seed.parse::<u64>(), count.parse::<u64>()),
        _ => (&String::new(), "".parse(), "".parse()),
    };
    let (Ok(seed), Ok(count)) = (seed, count) else {
        eprintln!("usage: compare PROGRAM SEED COUNT");
        return ExitCode::from(2);
    };
    let mut lines = 0;
    for place in 0..count {
        match compare(program, seed, place) {
            Ok(more) => lines += more,
            Err(difference) => {
                println!("{difference}");
                println!("the table: tables {seed} 1 {place}");
                return ExitCode::FAILURE;
            }
        }
    }
    println!("{count} tables, {lines} lines, agreed (seed {seed})");
    ExitCode::SUCCESS
}
