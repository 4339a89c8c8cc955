//! Reads from standard input what the program `unfold` prints, or the words of a plan, and
//! prints the plan in infix signs and its paths, one to a line: the orders, and the stuck ones.
//! [`reference::reading`] tells the forms.

use reference::filter::filter;
use reference::reading::reading;
use std::process::ExitCode;

fn main() -> ExitCode {
    filter(|text| reading(text).map(String::into_bytes))
}
