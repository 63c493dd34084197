//! From a file on standard input to a text on standard output.
#![forbid(unsafe_code)]

use std::io::{Read, Write};
use std::process::ExitCode;

/// Reads the file and writes its text, or says why the file can't be read.
fn main() -> std::io::Result<ExitCode> {
    let mut file = Vec::new();
    std::io::stdin().read_to_end(&mut file)?;
    match peer::text::disassemble(&file) {
        Ok(text) => {
            std::io::stdout().write_all(text.as_bytes())?;
            Ok(ExitCode::SUCCESS)
        }
        Err(refusal) => {
            eprint!("{}", peer::input::verdict_line(refusal.into()));
            Ok(ExitCode::FAILURE)
        }
    }
}
