//! From a text on standard input to a file on standard output.
#![forbid(unsafe_code)]

use std::io::{Read, Write};
use std::process::ExitCode;

/// Reads the text and writes the file, or says where the text can't be read.
fn main() -> std::io::Result<ExitCode> {
    let mut text = String::new();
    std::io::stdin().read_to_string(&mut text)?;
    match peer::text::assemble(&text) {
        Ok(file) => {
            std::io::stdout().write_all(&file)?;
            Ok(ExitCode::SUCCESS)
        }
        Err(fault) => {
            eprintln!("{fault}");
            Ok(ExitCode::FAILURE)
        }
    }
}
