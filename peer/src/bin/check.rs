//! The checking program: a file on standard input, one line on standard output.
#![forbid(unsafe_code)]

use std::io::{Read, Write};

/// Reads the file, checks it and prints the verdict.
fn main() -> std::io::Result<()> {
    let mut file = Vec::new();
    std::io::stdin().read_to_end(&mut file)?;
    std::io::stdout().write_all(peer::input::check_line(&file).as_bytes())
}
