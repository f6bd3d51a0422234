//! Reads a table and choices from standard input and prints the run
//! (document 01, "The printed run").

use std::io::{self, Read, Write};

use reference::print::{printed_run, LONGEST_INPUT};

fn main() -> io::Result<()> {
    // One byte above the limit is enough to know that the input is too long.
    let mut input = Vec::new();
    io::stdin()
        .lock()
        .take(LONGEST_INPUT as u64 + 1)
        .read_to_end(&mut input)?;
    let mut output = io::stdout().lock();
    output.write_all(&printed_run(&input))?;
    output.flush()
}
