//! Prints, as Markdown tables, what a step takes, a word of a plan, a character of a text or a block
//! of a station file, in an earlier proved library and in the one of now, measured in turns. Ends at
//! the first call on which they differ.

use before::BEFORE;
use benchmarks::contenders::{Contender, PROVED};
use benchmarks::measuring::{cell, least_times, mean};
use benchmarks::workloads::{
    counts, exchanges, growing_sums, judgements, lists, merges_in_growing_areas,
    merges_of_longer_chains, precedences, station_files, texts, walks, Workload,
};

fn main() {
    println!(
        "Nanoseconds for a step, a word of a plan, a character of a text or a block of a station file."
    );
    println!(
        "Each number is the least of several turns, which the two libraries took one after the other;"
    );
    println!(
        "they agreed in every number answered and in every lent byte. Steps or words alone: the call"
    );
    println!(
        "less the same call with a plan of one action. Blocks alone, of a file written: the call less"
    );
    println!(
        "the same call with an area of no bytes; of a file read: the same call with a plan area of no"
    );
    println!("bytes, which is refused when the blocks are read.");
    unfoldings();
    replays();
    read_texts();
    messages();
    judged_plans();
    questions();
    preceding_actions();
    written_files();
    read_files();
}

/// Both libraries.
fn libraries() -> [Contender; 2] {
    [
        BEFORE,
        PROVED.expect("the library is linked with this command"),
    ]
}

/// Compares both libraries once.
fn compare(name: &str, call: &mut impl Workload) {
    let [before, now] = libraries().map(|library| call.outcome(library));
    assert!(before == now, "{name}: the libraries differ");
}

/// What one of so many parts of a call takes.
fn measure(name: &str, call: &mut impl Workload, parts: usize) -> Pair {
    compare(name, call);
    let [before, now] = least_times(|index| {
        call.run(libraries()[index]);
    });
    Pair::new(before, now, parts)
}

/// What one of so many parts takes: of the call, and of the call less one without them.
fn measure_alone(
    name: &str,
    call: &mut impl Workload,
    mut empty: impl Workload,
    parts: usize,
) -> [Pair; 2] {
    compare(name, call);
    let [before, now, empty_before, empty_now] = least_times(|index| {
        let library = libraries()[index % 2];
        match index {
            0..2 => call.run(library),
            _ => empty.run(library),
        };
    });
    [
        Pair::new(before, now, parts),
        Pair::new(before - empty_before, now - empty_now, parts),
    ]
}

/// A table that is being printed: in each row the cells that name it, then pairs of times.
struct Table<const PAIRS: usize> {
    /// How many cells name a row.
    names: usize,
    /// The ratios of each pair, by rows.
    ratios: [Vec<f64>; PAIRS],
}

impl<const PAIRS: usize> Table<PAIRS> {
    /// Prints the head: what the cells that name a row are, and what is measured.
    fn begin(names: &str, measured: [&str; PAIRS]) -> Table<PAIRS> {
        let heads = measured.map(|times| format!("{times}: before | now | now/before"));
        println!("\n| {names} | {} |", heads.join(" | "));
        let names = names.split('|').count();
        println!("|---|{}", "--:|".repeat(names - 1 + 3 * PAIRS));
        Table {
            names,
            ratios: [const { Vec::new() }; PAIRS],
        }
    }

    fn row(&mut self, names: &str, times: [Pair; PAIRS]) {
        let cells = times.each_ref().map(Pair::cells);
        println!("| {names} | {} |", cells.join(" | "));
        for (ratios, times) in self.ratios.iter_mut().zip(times) {
            ratios.push(times.ratio());
        }
    }

    /// Prints the geometric means of the ratios, each below them.
    fn end(self) {
        let blank = " |".repeat(self.names - 1 + 2);
        let means = self.ratios.map(|ratios| cell(mean(&ratios)));
        println!("| geometric mean |{blank} {} |", means.join(" | | | "));
    }
}

fn unfoldings() {
    let mut table = Table::begin("unfolding | | | steps", ["call", "steps alone"]);
    let sums = growing_sums().map(|(names, sum)| (format!("sum | {names}"), sum));
    let merges = merges_in_growing_areas().map(|(names, merge)| (format!("{names} | 2"), merge));
    let longer = merges_of_longer_chains()
        .map(|(names, merge)| (names.replacen('|', "| 16384 |", 1), merge));
    for (names, mut unfolding) in merges.chain(longer).chain(sums) {
        let (steps, empty) = (unfolding.steps, unfolding.without_steps());
        let times = measure_alone(&names, &mut unfolding, empty, steps);
        table.row(&format!("{names} | {steps}"), times);
    }
    table.end();
}

/// Steps from left to right alone: an earlier library may refuse others.
fn replays() {
    let mut table = Table::begin("checking | words | steps", ["call"]);
    for (name, mut replay) in exchanges() {
        let (_, steps, size) = replay.run(BEFORE);
        let names = format!("{name} | {size} | {steps}");
        table.row(&names, [measure(&names, &mut replay, steps)]);
    }
    table.end();
    let mut table = Table::begin("checking the list of | areas | steps", ["call"]);
    for (names, [mut own, _]) in lists() {
        let (_, steps, _) = own.run(BEFORE);
        let names = format!("{names} | {steps}");
        table.row(&names, [measure(&names, &mut own, steps)]);
    }
    table.end();
}

fn read_texts() {
    let mut table = Table::begin("text | characters", ["call"]);
    for (name, mut reading) in texts() {
        let characters = reading.text.len();
        let names = format!("{name} | {characters}");
        table.row(&names, [measure(&names, &mut reading, characters)]);
    }
    table.end();
}

fn messages() {
    let mut table = Table::begin("walk | words | marks", ["`fresh_walk`", "`walk`"]);
    for (names, mut walking) in walks() {
        let words = walking.plan.len();
        let begun = measure(&names, &mut walking.beginning(), words);
        let taken = measure(&names, &mut walking, words);
        table.row(&names, [begun, taken]);
    }
    table.end();
}

fn judged_plans() {
    let mut table = Table::begin("judging | words", ["call", "words alone"]);
    for (name, mut judging) in judgements() {
        let (words, empty) = (judging.plan.len(), judging.of_one_action());
        let times = measure_alone(name, &mut judging, empty, words);
        table.row(&format!("{name} | {words}"), times);
    }
    table.end();
}

fn questions() {
    let mut table = Table::begin("plan | words", ["`is_basic`", "`count_orders`"]);
    for (names, mut counting) in counts() {
        let words = counting.plan.len();
        let basic = measure(&names, &mut counting.whether_basic(), words);
        let counted = measure(&names, &mut counting, words);
        table.row(&names, [basic, counted]);
    }
    table.end();
}

fn preceding_actions() {
    let mut table = Table::begin("precedence | words | answer", ["call", "words alone"]);
    for (names, mut asking) in precedences() {
        let (words, empty) = (asking.plan.len(), asking.of_one_action());
        table.row(&names, measure_alone(&names, &mut asking, empty, words));
    }
    table.end();
}

fn written_files() {
    let mut table = Table::begin("file written | words | blocks", ["call", "blocks alone"]);
    for (names, mut writing) in station_files() {
        let (blocks, empty) = (writing.blocks(), writing.without_blocks());
        table.row(&names, measure_alone(&names, &mut writing, empty, blocks));
    }
    table.end();
}

fn read_files() {
    let mut table = Table::begin("file read | words | blocks", ["call", "blocks alone"]);
    for (names, writing) in station_files() {
        let (mut reading, blocks) = (writing.read_back(), writing.blocks());
        let call = measure(&names, &mut reading, blocks);
        let alone = measure(&names, &mut reading.blocks_alone(), blocks);
        table.row(&names, [call, alone]);
    }
    table.end();
}

/// What one of so many parts takes, before and now.
struct Pair {
    before: f64,
    now: f64,
}

impl Pair {
    fn new(before: f64, now: f64, parts: usize) -> Pair {
        let parts = parts as f64;
        Pair {
            before: before / parts,
            now: now / parts,
        }
    }

    fn ratio(&self) -> f64 {
        self.now / self.before
    }

    fn cells(&self) -> String {
        let numbers = [self.before, self.now, self.ratio()];
        numbers.map(|number| cell(Some(number))).join(" | ")
    }
}

/// The earlier library; docs/BENCHMARKS.md says how its archive is made, with its calls renamed.
mod before {
    use benchmarks::contenders::{Contender, Ended};

    extern "C" {
        fn before_unfold(
            tables: *const u8,
            tables_len: usize,
            plan: *const u8,
            plan_len: usize,
            allowance: u32,
            list: *mut u8,
            list_len: usize,
            a: *mut u8,
            a_len: usize,
            b: *mut u8,
            b_len: usize,
            steps: *mut usize,
            size: *mut usize,
            place: *mut usize,
        ) -> u8;

        fn before_check_rewriting(
            tables: *const u8,
            tables_len: usize,
            start: *const u8,
            start_len: usize,
            claimed: *const u8,
            claimed_len: usize,
            rewriting: *const u8,
            rewriting_len: usize,
            a: *mut u8,
            a_len: usize,
            b: *mut u8,
            b_len: usize,
            steps: *mut usize,
            size: *mut usize,
            place: *mut usize,
        ) -> u8;

        fn before_read_text(
            tables: *const u8,
            tables_len: usize,
            text: *const u8,
            text_len: usize,
            plan: *mut u8,
            plan_len: usize,
            size: *mut usize,
            place: *mut usize,
        ) -> u8;

        fn before_fresh_walk(
            tables: *const u8,
            tables_len: usize,
            plan: *const u8,
            plan_len: usize,
            marks: *mut u8,
            marks_len: usize,
            finished: *mut usize,
            place: *mut usize,
        ) -> u8;

        fn before_walk(
            tables: *const u8,
            tables_len: usize,
            plan: *const u8,
            plan_len: usize,
            marks: *mut u8,
            marks_len: usize,
            message: u8,
            finished: *mut usize,
            place: *mut usize,
        ) -> u8;

        fn before_judge_plan(
            tables: *const u8,
            tables_len: usize,
            plan: *const u8,
            plan_len: usize,
            place: *mut usize,
        ) -> u8;

        fn before_is_basic(
            tables: *const u8,
            tables_len: usize,
            plan: *const u8,
            plan_len: usize,
            basic: *mut usize,
            place: *mut usize,
        ) -> u8;

        fn before_count_orders(
            tables: *const u8,
            tables_len: usize,
            plan: *const u8,
            plan_len: usize,
            orders: *mut usize,
            stuck: *mut usize,
            place: *mut usize,
        ) -> u8;

        fn before_precedes(
            tables: *const u8,
            tables_len: usize,
            plan: *const u8,
            plan_len: usize,
            first: u8,
            second: u8,
            yes: *mut usize,
            at: *mut usize,
            place: *mut usize,
        ) -> u8;

        fn before_write_station(
            tables: *const u8,
            tables_len: usize,
            plan: *const u8,
            plan_len: usize,
            file: *mut u8,
            file_len: usize,
            size: *mut usize,
            place: *mut usize,
        ) -> u8;

        fn before_read_station(
            file: *const u8,
            file_len: usize,
            tables: *mut u8,
            tables_len: usize,
            plan: *mut u8,
            plan_len: usize,
            size: *mut usize,
            place: *mut usize,
        ) -> u8;
    }

    pub const BEFORE: Contender = Contender {
        unfold: |tables, plan, allowance, list, a, b| {
            // SAFETY: slices that Rust has borrowed, each as a pointer and a length; see
            // `aberulwy::raw`, which calls the library of now in the same way.
            ended(|steps, size, place| unsafe {
                before_unfold(
                    tables.as_ptr(),
                    tables.len(),
                    plan.as_ptr(),
                    plan.len(),
                    allowance,
                    list.as_mut_ptr(),
                    list.len(),
                    a.as_mut_ptr(),
                    a.len(),
                    b.as_mut_ptr(),
                    b.len(),
                    steps,
                    size,
                    place,
                )
            })
        },
        check_rewriting: |tables, start, claimed, rewriting, a, b| {
            // SAFETY: as above.
            ended(|steps, size, place| unsafe {
                before_check_rewriting(
                    tables.as_ptr(),
                    tables.len(),
                    start.as_ptr(),
                    start.len(),
                    claimed.as_ptr(),
                    claimed.len(),
                    rewriting.as_ptr(),
                    rewriting.len(),
                    a.as_mut_ptr(),
                    a.len(),
                    b.as_mut_ptr(),
                    b.len(),
                    steps,
                    size,
                    place,
                )
            })
        },
        read_text: |tables, text, area| {
            // SAFETY: as above.
            ended(|_, size, place| unsafe {
                before_read_text(
                    tables.as_ptr(),
                    tables.len(),
                    text.as_ptr(),
                    text.len(),
                    area.as_mut_ptr(),
                    area.len(),
                    size,
                    place,
                )
            })
        },
        fresh_walk: |tables, plan, marks| {
            // SAFETY: as above.
            ended(|_, finished, place| unsafe {
                before_fresh_walk(
                    tables.as_ptr(),
                    tables.len(),
                    plan.as_ptr(),
                    plan.len(),
                    marks.as_mut_ptr(),
                    marks.len(),
                    finished,
                    place,
                )
            })
        },
        walk: |tables, plan, marks, message| {
            // SAFETY: as above.
            ended(|_, finished, place| unsafe {
                before_walk(
                    tables.as_ptr(),
                    tables.len(),
                    plan.as_ptr(),
                    plan.len(),
                    marks.as_mut_ptr(),
                    marks.len(),
                    message,
                    finished,
                    place,
                )
            })
        },
        judge_plan: |tables, plan| {
            // SAFETY: as above.
            ended(|_, _, place| unsafe {
                before_judge_plan(
                    tables.as_ptr(),
                    tables.len(),
                    plan.as_ptr(),
                    plan.len(),
                    place,
                )
            })
        },
        is_basic: |tables, plan| {
            // SAFETY: as above.
            ended(|_, basic, place| unsafe {
                before_is_basic(
                    tables.as_ptr(),
                    tables.len(),
                    plan.as_ptr(),
                    plan.len(),
                    basic,
                    place,
                )
            })
        },
        count_orders: |tables, plan| {
            // SAFETY: as above.
            ended(|orders, stuck, place| unsafe {
                before_count_orders(
                    tables.as_ptr(),
                    tables.len(),
                    plan.as_ptr(),
                    plan.len(),
                    orders,
                    stuck,
                    place,
                )
            })
        },
        precedes: |tables, plan, first, second| {
            // SAFETY: as above.
            ended(|yes, at, place| unsafe {
                before_precedes(
                    tables.as_ptr(),
                    tables.len(),
                    plan.as_ptr(),
                    plan.len(),
                    first,
                    second,
                    yes,
                    at,
                    place,
                )
            })
        },
        // The call is new with version 0.11.0, and can be compared from the next version on.
        fix_form: |_, _, _| panic!("the earlier library has no fixed forms"),
        write_station: |tables, plan, area| {
            // SAFETY: as above.
            ended(|_, size, place| unsafe {
                before_write_station(
                    tables.as_ptr(),
                    tables.len(),
                    plan.as_ptr(),
                    plan.len(),
                    area.as_mut_ptr(),
                    area.len(),
                    size,
                    place,
                )
            })
        },
        read_station: |file, tables, plan| {
            // SAFETY: as above.
            ended(|_, size, place| unsafe {
                before_read_station(
                    file.as_ptr(),
                    file.len(),
                    tables.as_mut_ptr(),
                    tables.len(),
                    plan.as_mut_ptr(),
                    plan.len(),
                    size,
                    place,
                )
            })
        },
    };

    /// Makes a call that sets at most two numbers, those of `Ended`, and a place.
    fn ended(call: impl FnOnce(&mut usize, &mut usize, &mut usize) -> u8) -> Ended {
        let (mut first, mut second, mut place) = (0, 0, 0);
        let number = call(&mut first, &mut second, &mut place);
        (number, first, second)
    }
}
