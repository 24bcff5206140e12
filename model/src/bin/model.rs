//! Reads a table of calls from standard input and prints each call with its answer.

use std::io::{self, Read, Write};

fn main() -> io::Result<()> {
    let mut table = Vec::new();
    io::stdin().lock().read_to_end(&mut table)?;
    io::stdout().lock().write_all(&model::table::printed(&table))
}
