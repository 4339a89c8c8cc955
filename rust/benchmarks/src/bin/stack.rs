//! Prints how much stack each call of the proved library needs: the least stack of a thread, in
//! whole KiB, in which the call comes to its end.
//!
//! A thread that needs more ends its process, so each try is a process of its own: this command
//! again, with the call's name and the stack's KiB. The thread's own beginning is counted with
//! the call.

use aberulwy::{raw, LONGEST_LISTING};
use benchmarks::contenders::{Contender, PROVED};
use benchmarks::workloads::{
    deep_texts, exchanges, exchanges_back, forms, long_sum, precedences, stopped_merges, walks,
    Workload, MERGES, STOPPED_CHAINS,
};
use reference::plans::LONGEST_PLAN;
use reference::stations::{station_file, BLOCK, MOST_BLOCKS};
use reference::tables::{trial_tables, TABLES_LENGTH};
use reference::texts::DEEPEST;
use reference::unfolding::RECORD;
use std::env::{args, current_exe};
use std::process::{Command, Stdio};
use std::thread::Builder;

/// More than any call needs, in KiB.
const ENOUGH: usize = 4096;
/// A thread that asks for less may get more, so less is not tried.
const LITTLE: usize = 32;
const CALLS: [&str; 16] = [
    "judge_tables",
    "judge_plan",
    "is_basic",
    "count_orders",
    "unfold",
    "unfold_checked",
    "reached",
    "check_rewriting",
    "read_station",
    "list_station",
    "read_text",
    "fresh_walk",
    "walk",
    "precedes",
    "write_station",
    "fix_form",
];

fn main() {
    let given: Vec<String> = args().skip(1).collect();
    if let [call, kib] = &given[..] {
        return attempt(call, kib.parse().expect("a number of KiB"));
    }
    println!("| call | KiB |");
    println!("|---|--:|");
    for call in CALLS {
        println!("| {call} | {} |", least(call));
    }
}

/// The least stack with which a call comes to its end.
fn least(call: &str) -> String {
    let (mut too_little, mut enough) = (LITTLE, ENOUGH);
    assert!(succeeds(call, enough), "{call} does not end well");
    if succeeds(call, too_little) {
        return format!("at most {LITTLE}");
    }
    while enough - too_little > 1 {
        let middle = (too_little + enough) / 2;
        match succeeds(call, middle) {
            true => enough = middle,
            false => too_little = middle,
        }
    }
    enough.to_string()
}

/// Whether a process with this try ends well.
fn succeeds(call: &str, kib: usize) -> bool {
    let mut command = Command::new(current_exe().expect("this command has a path"));
    command.args([call, &kib.to_string()]);
    let ended = command.stdout(Stdio::null()).stderr(Stdio::null()).status();
    ended.expect("this command runs again").success()
}

/// Makes a call in a thread with this stack.
fn attempt(call: &str, kib: usize) {
    let thread = Builder::new().stack_size(1024 * kib).spawn(prepared(call));
    let number = thread.expect("a thread begins").join();
    assert_eq!(number.expect("the call ends"), 0, "the number of {call}");
}

/// A call with all that it is handed; it answers its number, or 0 where several calls end as they
/// should.
type Prepared = Box<dyn FnOnce() -> u8 + Send>;

/// The call of this name.
fn prepared(call: &str) -> Prepared {
    let (tables, plan) = (trial_tables(), long_sum(LONGEST_PLAN));
    let proved = PROVED.expect("the archive is linked");
    match call {
        "judge_tables" => Box::new(move || raw::judge_tables(&tables).number),
        "judge_plan" => Box::new(move || raw::judge_plan(&tables, &plan).number),
        "is_basic" => Box::new(move || raw::is_basic(&tables, &plan).number),
        "count_orders" => Box::new(move || raw::count_orders(&tables, &plan).number),
        "unfold" => {
            let mut unfolding = stopped_merges(STOPPED_CHAINS[1]);
            Box::new(move || unfolding.run(proved).0)
        }
        // Plans of all lengths, with steps in both directions, near and far, and with left sides of
        // all lengths.
        "check_rewriting" => {
            let mut replays = exchanges();
            replays.extend(exchanges_back());
            all(replays, proved)
        }
        "unfold_checked" => {
            let unfolding = stopped_merges(STOPPED_CHAINS[1]);
            let mut list = vec![0; RECORD * unfolding.steps];
            let mut areas = [(); 4].map(|()| vec![0; LONGEST_PLAN]);
            Box::new(move || {
                let (tables, plan) = (&unfolding.tables, &unfolding.plan);
                let [a, b, c, d] = areas.each_mut().map(|area| &mut area[..]);
                let both = raw::unfold_checked(tables, plan, u32::MAX, &mut list, [a, b], [c, d]);
                both.unfolded.number
            })
        }
        "reached" => {
            let mut area = vec![0; plan.len()];
            Box::new(move || raw::reached(&plan, &[], 0, plan.len(), &mut area).number)
        }
        "read_station" => {
            let file = station_file(&tables, &plan);
            let (mut a, mut b) = (vec![0; TABLES_LENGTH], vec![0; LONGEST_PLAN]);
            Box::new(move || raw::read_station(&file, &mut a, &mut b).number)
        }
        "list_station" => {
            let file = station_file(&tables, &MERGES[0].plan(2, 20));
            let mut out = vec![0; LONGEST_LISTING];
            Box::new(move || raw::list_station(&file, &mut out).number)
        }
        "read_text" => {
            // Texts as deep as is allowed, which are read, and one deeper, which are refused.
            let (read, refused) = (deep_texts(DEEPEST), deep_texts(DEEPEST + 1));
            let mut area = vec![0; LONGEST_PLAN];
            Box::new(move || {
                let mut number =
                    |text: &String| raw::read_text(&tables, text.as_bytes(), &mut area).number;
                let right = read.iter().all(|text| number(text) == 0)
                    && refused.iter().all(|text| number(text) == 62);
                u8::from(!right)
            })
        }
        "fresh_walk" => {
            let (mut marks, mut finished) = (vec![0; plan.len()], 0);
            Box::new(move || raw::fresh_walk(&tables, &plan, &mut marks, &mut finished).number)
        }
        // Plans of all lengths, deep and wide, with one mark and with all words marked.
        "walk" => all(walks(), proved),
        // Plans of all lengths, deep, wide and random, with both answers.
        "precedes" => all(precedences(), proved),
        "write_station" => {
            let mut area = vec![0; BLOCK * MOST_BLOCKS];
            Box::new(move || raw::write_station(&tables, &plan, &mut area).number)
        }
        // Plans of all lengths and shapes.
        "fix_form" => all(forms(), proved),
        _ => panic!("no call {call}"),
    }
}

/// Several calls, one after the other, each of which is to answer 0.
fn all<W: Workload + Send + 'static>(calls: Vec<(String, W)>, proved: Contender) -> Prepared {
    Box::new(move || {
        let right = calls
            .into_iter()
            .all(|(_, mut call)| call.run(proved).0 == 0);
        u8::from(!right)
    })
}
