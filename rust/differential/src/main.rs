//! Runs random cases through the reference and the proved library.
//!
//! `differential [cases] [seed]`; the last line is `N passed, M failed`.

use differential::{compare, Proved, Reference};
use std::process::ExitCode;

const CASES: u64 = 10_000;
const SEED: u64 = 1;

fn main() -> ExitCode {
    let given: Vec<String> = std::env::args().skip(1).collect();
    let (Some(cases), Some(seed)) = (argument(&given, 0, CASES), argument(&given, 1, SEED)) else {
        eprintln!("usage: differential [cases] [seed]");
        return ExitCode::from(2);
    };
    match compare(&Reference, &Proved, cases, seed) {
        Ok(agreement) => {
            print!("{agreement}");
            println!("{cases} passed, 0 failed");
            ExitCode::SUCCESS
        }
        Err(difference) => {
            print!("{difference}");
            println!("(first is the reference, second the proved library)");
            println!("{} passed, 1 failed", difference.passed);
            ExitCode::FAILURE
        }
    }
}

/// The number at an index of the arguments, or the default; none if it is no number.
fn argument(given: &[String], index: usize, default: u64) -> Option<u64> {
    match given.get(index) {
        Some(text) => text.parse().ok(),
        None => Some(default),
    }
}
