//! The running program: a request on standard input, one line on standard output.
#![forbid(unsafe_code)]

use std::io::{Read, Write};

/// Reads the request, runs it and prints the answer.
fn main() -> std::io::Result<()> {
    let mut input = Vec::new();
    std::io::stdin().read_to_end(&mut input)?;
    std::io::stdout().write_all(peer::input::run_line(&input).0.as_bytes())
}
