//! Programs of this crate, run on a text.

use std::io::Write;
use std::process::{Command, Output, Stdio};

/// What a program answers that is handed a text on standard input.
pub fn run(program: &str, text: &[u8]) -> Output {
    let mut child = Command::new(program)
        .stdin(Stdio::piped())
        .stdout(Stdio::piped())
        .stderr(Stdio::piped())
        .spawn()
        .unwrap();
    child.stdin.take().unwrap().write_all(text).unwrap();
    child.wait_with_output().unwrap()
}
