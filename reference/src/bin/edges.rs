//! Reads the list of edges from standard input and prints what each gives. In
//! the repository's top folder,
//!
//! `cargo run --release --offline --manifest-path reference/Cargo.toml --bin edges < crates/program_edges/stdin > crates/program_edges/stdout`
//!
//! makes the expected output of the proved program again.

use std::io::{self, Read, Write};

use reference::edges::{lines, printed};

fn main() -> io::Result<()> {
    let mut list = String::new();
    io::stdin().lock().read_to_string(&mut list)?;
    let mut output = io::stdout().lock();
    for line in lines(&list) {
        output.write_all(printed(&line).as_bytes())?;
    }
    output.flush()
}
