//! The program: unfolds a station file from standard input.

use std::io::{self, Read, Write};

/// One byte more than the longest station file, so that a longer input is noticed.
const MOST_READ: u64 = 38 * 512 + 1;

fn main() -> io::Result<()> {
    let mut input = Vec::new();
    io::stdin().take(MOST_READ).read_to_end(&mut input)?;
    io::stdout().write_all(reference::stations::program(&input).as_bytes())
}
