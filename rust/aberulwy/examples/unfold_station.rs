//! Unfolds the station file that its argument names, and prints how that ended, the plan
//! reached, and the counts of its orders and of its stuck paths. A refusal goes to standard
//! error, with status 1.
//!
//! `unfold_station FILE`

use aberulwy::{count_orders, read_station, unfold, LONGEST_PLAN, RECORD, TABLES_LENGTH};
use std::error::Error;
use std::process::ExitCode;
use std::{env, fs};

/// The most steps that are made; the list has room for as many records.
const ALLOWANCE: u32 = 100_000;

fn main() -> ExitCode {
    match run() {
        Ok(()) => ExitCode::SUCCESS,
        Err(error) => {
            eprintln!("{error}");
            ExitCode::FAILURE
        }
    }
}

fn run() -> Result<(), Box<dyn Error>> {
    let path = env::args_os().nth(1).ok_or("unfold_station FILE")?;
    let file = fs::read(path)?;

    // The file's tables and plan.
    let mut tables = [0; TABLES_LENGTH];
    let mut plan = vec![0; LONGEST_PLAN];
    let size = read_station(&file, &mut tables, &mut plan)?;
    let plan = &plan[..size];

    // Three bytes for each step, and two areas that hold every plan.
    let mut list = vec![0; RECORD * ALLOWANCE as usize];
    let (mut a, mut b) = (vec![0; LONGEST_PLAN], vec![0; LONGEST_PLAN]);
    let unfolded = unfold(&tables, plan, ALLOWANCE, &mut list, &mut a, &mut b)?;

    let reached = unfolded.reached(&a, &b);
    println!(
        "ending: {:?} after {} steps",
        unfolded.ending, unfolded.steps
    );
    let words: Vec<String> = reached.iter().map(u8::to_string).collect();
    println!("plan reached: {}", words.join(" "));
    let counts = count_orders(&tables, reached)?;
    println!("orders: {}, stuck: {}", counts.orders, counts.stuck);
    Ok(())
}
