//! Reads a description of a station from standard input, and writes the station file to
//! standard output. [`reference::descriptions`] tells the language.

use reference::descriptions::station;
use reference::filter::filter;
use std::process::ExitCode;

fn main() -> ExitCode {
    filter(station)
}
