//! A program that turns the text on standard input into bytes on standard output.

use std::error::Error;
use std::io::{self, Read, Write};
use std::process::ExitCode;

/// Runs such a program: status 0. Where the text is not taken, a complaint goes to standard
/// error, nothing to standard output, and the status is 1. Bytes that are no UTF-8 read as `�`.
pub fn filter<E: Error + 'static>(turn: impl FnOnce(&str) -> Result<Vec<u8>, E>) -> ExitCode {
    match turned(turn) {
        Ok(()) => ExitCode::SUCCESS,
        Err(complaint) => {
            eprintln!("{complaint}");
            ExitCode::FAILURE
        }
    }
}

fn turned<E: Error + 'static>(
    turn: impl FnOnce(&str) -> Result<Vec<u8>, E>,
) -> Result<(), Box<dyn Error>> {
    let mut text = Vec::new();
    io::stdin().read_to_end(&mut text)?;
    let bytes = turn(&String::from_utf8_lossy(&text))?;
    let mut out = io::stdout();
    out.write_all(&bytes)?;
    out.flush()?;
    Ok(())
}
