//! Prints, as Markdown tables, what a step takes: in the proved library, in an unverified plain
//! Rust version of the same algorithm, and in Maude; and what a character of a text, a message to
//! a walk, a judgement of a plan, a count of paths, a question whether one action comes before
//! another, which the plain version answers by another algorithm, a fixed form and a block of a
//! station file take in the first two. Ends at the first call on which the proved library and the
//! plain version differ.

use benchmarks::contenders::{PLAIN, PROVED, REFERENCE};
use benchmarks::maude;
use benchmarks::measuring::{cell, least_times, mean};
use benchmarks::workloads::{
    counts, exchanges, exchanges_back, forms, growing_sums, judgements, lists,
    merges_in_growing_areas, merges_of_longer_chains, precedences, single_action, station_files,
    sum_tables, texts, walks, Reading, Unfolding, Workload,
};
use reference::plans::LONGEST_PLAN;
use reference::tables::{actions, trial_tables};

/// The areas of a short call without a step.
const SMALL_AREA: usize = 256;

fn main() {
    println!(
        "Nanoseconds for a step; the whole call counts (judging, steps, storing). Each number"
    );
    println!("is the least of several turns, which the proved library and the plain version took");
    println!(
        "one after the other. Steps alone: the proved library's call less the same call with a"
    );
    println!("plan of one action. Maude: its own report, for one of many reductions of the plan;");
    println!(
        "rewrites are the equations that it used for one. The last nine tables are of texts, for"
    );
    println!(
        "a call and for a character, of messages to walks, judgements of plans, counts of paths,"
    );
    println!(
        "questions whether one action comes before another and fixed forms, for a call and for a"
    );
    println!("word, and of station files written and read, for a call and for a block.");
    match PROVED {
        Some(_) => println!("\nIn each row the proved library and the plain version were first called once each, and\nagreed in every number answered and in every lent byte."),
        None => println!("\nThe proved library is left out: build with `--features archive` to link it."),
    }
    let with_maude = maude::installed();
    if !with_maude {
        println!("\nMaude is left out: there is no command `maude`.");
    }
    without_steps();
    growing_areas(with_maude);
    longer_chains(with_maude);
    plan_length(with_maude);
    replays();
    replays_back();
    replayed_lists();
    short_texts();
    long_texts();
    messages();
    judged_plans();
    counted_paths();
    preceding_actions();
    fixed_forms();
    written_files();
    read_files();
}

/// What the proved library and the plain version take.
#[derive(Clone, Copy)]
struct Times {
    proved: Option<f64>,
    plain: f64,
}

impl Times {
    /// Compares both once, then measures both, in nanoseconds for a call.
    fn measure(name: &str, call: &mut impl Workload) -> Times {
        Times::measure_answering(name, call, 0)
    }

    /// The same for a call that answers this number, which may be a refusal.
    fn measure_answering(name: &str, call: &mut impl Workload, wanted: u8) -> Times {
        let outcome = call.outcome(PLAIN);
        let ((number, _, _), _) = outcome;
        assert_eq!(number, wanted, "{name}: the plain version's number");
        if let Some(proved) = PROVED {
            let same = call.outcome(proved) == outcome;
            assert!(same, "{name}: proved library and plain version differ");
        }
        let contenders = [Some(PLAIN), PROVED];
        let [plain, proved] = least_times(|index| {
            contenders[index].map(|contender| call.run(contender));
        });
        Times {
            proved: PROVED.map(|_| proved),
            plain,
        }
    }

    /// What the steps, the text, the walk, the plan's words or the blocks alone take: the call less
    /// a call without them, which take turns.
    fn alone(call: &mut impl Workload, mut empty: impl Workload) -> Times {
        let contenders = [Some(PLAIN), PROVED];
        let [plain, proved, empty_plain, empty_proved] = least_times(|index| {
            contenders[index % 2].map(|contender| match index {
                0..2 => call.run(contender),
                _ => empty.run(contender),
            });
        });
        Times {
            proved: PROVED.map(|_| proved - empty_proved),
            plain: plain - empty_plain,
        }
    }

    /// The times for one of so many parts.
    fn each(self, parts: usize) -> Times {
        let parts = parts as f64;
        Times {
            proved: self.proved.map(|proved| proved / parts),
            plain: self.plain / parts,
        }
    }

    fn ratio(&self) -> Option<f64> {
        self.proved.map(|proved| proved / self.plain)
    }

    fn cells(&self) -> String {
        let (proved, plain) = (cell(self.proved), cell(Some(self.plain)));
        format!("{proved} | {plain} | {}", cell(self.ratio()))
    }
}

/// A table of unfoldings, with the ratios of its rows: of the calls and of the steps alone, to
/// the plain version and of Maude.
struct Unfoldings {
    with_maude: bool,
    ratios: [Vec<f64>; 4],
}

impl Unfoldings {
    fn begin(with_maude: bool, names: &str) -> Unfoldings {
        println!("\n| {names} | words | steps | rewrites | call: proved | plain | proved/plain | steps alone: proved | plain | proved/plain | Maude | Maude/call | Maude/steps alone |");
        println!("|---|--:|--:|--:|--:|--:|--:|--:|--:|--:|--:|--:|--:|--:|");
        Unfoldings {
            with_maude,
            ratios: Default::default(),
        }
    }

    fn row(&mut self, names: &str, mut unfolding: Unfolding) {
        let (words, steps) = (unfolding.plan.len(), unfolding.steps);
        let call = Times::measure(names, &mut unfolding).each(steps);
        let without_steps = unfolding.without_steps();
        let alone = Times::alone(&mut unfolding, without_steps).each(steps);
        let reduced = match self.with_maude {
            true => {
                let reduced = maude::reduce(&unfolding).expect("maude runs");
                Some(reduced.expect("maude reaches the same plan"))
            }
            false => None,
        };
        let rewrites = reduced.map_or("–".to_string(), |reduced| reduced.rewrites.to_string());
        // One equation more is used for each plan reduced, to put it in.
        let maude = reduced.and_then(|reduced| Some(reduced.time? / (steps + 1) as f64));
        let to_maude = |time: Option<f64>| Some(maude? / time?);
        let (to_call, to_alone) = (to_maude(call.proved), to_maude(alone.proved));
        println!(
            "| {names} | {words} | {steps} | {rewrites} | {} | {} | {} | {} | {} |",
            call.cells(),
            alone.cells(),
            cell(maude),
            cell(to_call),
            cell(to_alone),
        );
        let row = [call.ratio(), alone.ratio(), to_call, to_alone];
        for (ratios, ratio) in self.ratios.iter_mut().zip(row) {
            ratios.extend(ratio);
        }
    }

    fn end(self) {
        let [call, alone, to_call, to_alone] = self.ratios.map(|ratios| cell(mean(&ratios)));
        println!(
            "| geometric mean | | | | | | | {call} | | | {alone} | | {to_call} | {to_alone} |"
        );
    }
}

fn without_steps() {
    println!("\n### Unfolding: a call without a step\n");
    println!("Nanoseconds for the call, with a plan of one action: a part that every call has,");
    println!("however many its steps.\n");
    println!("| tables | areas | proved | plain | proved/plain |");
    println!("|---|--:|--:|--:|--:|");
    for tables in [trial_tables(), sum_tables()] {
        for area in [SMALL_AREA, LONGEST_PLAN] {
            let name = format!("{} actions | {area}", actions(&tables));
            let times = Times::measure(&name, &mut single_action(tables.clone(), area));
            println!("| {name} | {} |", times.cells());
        }
    }
}

fn growing_areas(with_maude: bool) {
    println!("\n### Unfolding: the merge of two chains\n");
    println!("The first chain has two actions; the second is the longest whose unfolding finishes");
    println!("in areas of that many words.");
    table(with_maude, "plan | areas", merges_in_growing_areas());
}

fn longer_chains(with_maude: bool) {
    println!("\n### Unfolding: longer chains\n");
    println!(
        "Areas of {LONGEST_PLAN} words; the second chain is again the longest. Σ δ·(x‖y): merges"
    );
    println!(
        "of different actions, each after a dead stop; there the plan is loaded again and again."
    );
    table(with_maude, "plan | chains", merges_of_longer_chains());
}

fn plan_length(with_maude: bool) {
    println!("\n### Unfolding: plan length alone\n");
    println!("A sum of small plans ∂((a·c)‖b), all different, as many as can be unfolded in areas");
    println!("of that many words: the terms rewritten stay small while the plan grows.");
    table(with_maude, "areas | small plans", growing_sums());
}

/// A table of unfoldings, each with the cells that name it.
fn table(with_maude: bool, names: &str, rows: impl Iterator<Item = (String, Unfolding)>) {
    let mut table = Unfoldings::begin(with_maude, names);
    for (names, unfolding) in rows {
        table.row(&names, unfolding);
    }
    table.end();
}

fn replays() {
    println!("\n### Checking: exchanges in a long sum\n");
    println!("Near: all steps at one place at the front. Far: steps in turns at the front and at the end.\n");
    println!("| places | words | steps | proved | plain | proved/plain |");
    println!("|---|--:|--:|--:|--:|--:|");
    let mut ratios = Vec::new();
    for (name, mut replay) in exchanges() {
        let (_, steps, size) = replay.run(PLAIN);
        let times = Times::measure(&name, &mut replay).each(steps);
        println!("| {name} | {size} | {steps} | {} |", times.cells());
        ratios.extend(times.ratio());
    }
    println!("| geometric mean | | | | | {} |", cell(mean(&ratios)));
}

fn replays_back() {
    println!("\n### Checking: exchanges in a long sum, from right to left\n");
    println!(
        "Each step carries its left side, of three words or of about a quarter of the plan; the"
    );
    println!(
        "exchanges are made on as many words at the front and at the end. Near and far as above.\n"
    );
    println!("| left side | places | words | steps | proved | plain | proved/plain |");
    println!("|--:|---|--:|--:|--:|--:|--:|");
    let mut ratios = Vec::new();
    for (names, mut replay) in exchanges_back() {
        let (_, steps, size) = replay.run(PLAIN);
        let times = Times::measure(&names, &mut replay).each(steps);
        println!("| {names} | {size} | {steps} | {} |", times.cells());
        ratios.extend(times.ratio());
    }
    println!("| geometric mean | | | | | | {} |", cell(mean(&ratios)));
}

fn replayed_lists() {
    println!("\n### Checking: lists of unfoldings, and turned round\n");
    println!("Of the merges of two chains in areas of that many words (above), the unfolding's own list,");
    println!("all steps from left to right, and the list turned round, all steps from right to left. Left");
    println!("side: the words that a step of the second list carries, in the arithmetic mean.\n");
    println!("| plan | areas | steps | left side | own: proved | plain | proved/plain | turned round: proved | plain | proved/plain |");
    println!("|---|--:|--:|--:|--:|--:|--:|--:|--:|--:|");
    let mut ratios: [Vec<f64>; 2] = Default::default();
    for (names, [mut own, mut turned]) in lists() {
        let (_, steps, _) = own.run(PLAIN);
        let carried = turned.carried(steps) as f64 / steps as f64;
        let own = Times::measure(&names, &mut own).each(steps);
        let turned = Times::measure(&names, &mut turned).each(steps);
        println!(
            "| {names} | {steps} | {} | {} | {} |",
            cell(Some(carried)),
            own.cells(),
            turned.cells()
        );
        for (ratios, times) in ratios.iter_mut().zip([own, turned]) {
            ratios.extend(times.ratio());
        }
    }
    let [own, turned] = ratios.map(|ratios| cell(mean(&ratios)));
    println!("| geometric mean | | | | | | {own} | | | {turned} |");
}

fn short_texts() {
    println!("\n### Reading texts: short ones\n");
    println!(
        "Nanoseconds for the call, most of them for the tables: a part that every call has.\n"
    );
    println!("| text | tables | area | proved | plain | proved/plain |");
    println!("|---|---|--:|--:|--:|--:|");
    for text in ["1", "(1 # 2)"] {
        for tables in [trial_tables(), sum_tables()] {
            for area in [SMALL_AREA, LONGEST_PLAN] {
                let name = format!("`{text}` | {} actions | {area}", actions(&tables));
                let mut reading = Reading::new(tables.clone(), text, area);
                let times = Times::measure(&name, &mut reading);
                println!("| {name} | {} |", times.cells());
            }
        }
    }
}

/// Prints the row of a call that has so many parts, characters or words: its first cells, the call,
/// one part of it, and one part of the call less one without them. Its ratios go to the others.
fn row_by_parts(
    cells: &str,
    mut call: impl Workload,
    without_parts: impl Workload,
    parts: usize,
    ratios: &mut [Vec<f64>; 2],
) {
    let whole = Times::measure(cells, &mut call);
    let alone = Times::alone(&mut call, without_parts).each(parts);
    let each = whole.each(parts);
    println!(
        "| {cells} | {} | {} | {} | {} |",
        whole.cells(),
        cell(each.proved),
        cell(Some(each.plain)),
        alone.cells(),
    );
    for (ratios, times) in ratios.iter_mut().zip([whole, alone]) {
        ratios.extend(times.ratio());
    }
}

fn long_texts() {
    println!("\n### Reading texts: plans as long as can be\n");
    println!("Nanoseconds for the call, and for a character: of the call, and of the text alone,");
    println!(
        "which is the call less the same call with a text of one character. Deep: brackets in"
    );
    println!(
        "brackets, 200 deep, side by side in a sum. Typed plans: a sum of plans of all sorts.\n"
    );
    println!("| text | characters | words | call: proved | plain | proved/plain | a character: proved | plain | text alone: proved | plain | proved/plain |");
    println!("|---|--:|--:|--:|--:|--:|--:|--:|--:|--:|--:|");
    let mut ratios: [Vec<f64>; 2] = Default::default();
    for (name, mut reading) in texts() {
        let characters = reading.text.len();
        let (_, _, words) = reading.run(PLAIN);
        let cells = format!("{name} | {characters} | {words}");
        let without_text = reading.without_text();
        row_by_parts(&cells, reading, without_text, characters, &mut ratios);
    }
    let [call, alone] = ratios.map(|ratios| cell(mean(&ratios)));
    println!("| geometric mean | | | | | {call} | | | | | {alone} |");
}

fn messages() {
    println!("\n### Walks: a message\n");
    println!(
        "Nanoseconds for the call, and for a word of the plan. Every call judges tables, plan and"
    );
    println!(
        "whether it is basic anew. Judging: what a fresh walk takes, which judges by the same"
    );
    println!(
        "code, and then sets the marks alone. Walk alone: the call less that, for a word. One"
    );
    println!("mark, at the last word, or all words marked. Crusted coin: the plan that the bench");
    println!("comes to. Deep: a chain of actions. Wide: a sum of products.\n");
    println!("| plan | words | marks | call: proved | plain | proved/plain | reference | judging: proved | plain | a word: proved | plain | walk alone: proved | plain | proved/plain |");
    println!("|---|--:|---|--:|--:|--:|--:|--:|--:|--:|--:|--:|--:|--:|");
    let mut ratios: [Vec<f64>; 2] = Default::default();
    for (names, mut walking) in walks() {
        let words = walking.plan.len();
        let call = Times::measure(&names, &mut walking);
        let judging = Times::measure(&names, &mut walking.beginning());
        let without_walk = walking.beginning();
        let alone = Times::alone(&mut walking, without_walk).each(words);
        let [reference] = least_times(|_| {
            walking.run(REFERENCE);
        });
        let each = call.each(words);
        println!(
            "| {names} | {} | {} | {} | {} | {} | {} | {} |",
            call.cells(),
            cell(Some(reference)),
            cell(judging.proved),
            cell(Some(judging.plain)),
            cell(each.proved),
            cell(Some(each.plain)),
            alone.cells(),
        );
        for (ratios, times) in ratios.iter_mut().zip([call, alone]) {
            ratios.extend(times.ratio());
        }
    }
    let [call, alone] = ratios.map(|ratios| cell(mean(&ratios)));
    println!("| geometric mean | | | | | {call} | | | | | | | | {alone} |");
}

fn judged_plans() {
    println!("\n### Judging: plans as long as can be\n");
    println!("Nanoseconds for the call, and for a word of the plan: of the call, and of the words");
    println!(
        "alone, which is the call less the same call with a plan of one action. The plain version"
    );
    println!("judges with the reference's code. Sum: θ of a sum of actions. Deep: ∂ of a chain of");
    println!(
        "actions. Blocked: ∂ by one set after the other, of an action. Mixed: a sum of plans of"
    );
    println!("all sorts. Random: words of no, one and two operands, drawn at random.\n");
    println!("| plan | words | call: proved | plain | proved/plain | a word: proved | plain | words alone: proved | plain | proved/plain |");
    println!("|---|--:|--:|--:|--:|--:|--:|--:|--:|--:|");
    let mut ratios: [Vec<f64>; 2] = Default::default();
    for (name, judging) in judgements() {
        let words = judging.plan.len();
        let cells = format!("{name} | {words}");
        let without_words = judging.of_one_action();
        row_by_parts(&cells, judging, without_words, words, &mut ratios);
    }
    let [call, alone] = ratios.map(|ratios| cell(mean(&ratios)));
    println!("| geometric mean | | | | {call} | | | | | {alone} |");
}

fn counted_paths() {
    println!("\n### Counting: orders and stuck paths\n");
    println!(
        "Nanoseconds for the call, and for a word of the plan; beside it `is_basic` of the same plan,"
    );
    println!(
        "which judges as much and counts nothing. The library has both in code of their own, so that"
    );
    println!(
        "one less the other is not what counting takes. Crusted coin: the plan that the bench"
    );
    println!(
        "comes to. Deep: a chain of actions. Sum: of actions. Wide: a sum of products. Both: a"
    );
    println!("sum of products, actions, and actions before dead stops. Stuck: a sum of actions");
    println!("before dead stops.\n");
    println!("| plan | words | call: proved | plain | proved/plain | reference | a word: proved | plain | `is_basic`: proved | plain | proved/plain |");
    println!("|---|--:|--:|--:|--:|--:|--:|--:|--:|--:|--:|");
    let mut ratios: [Vec<f64>; 2] = Default::default();
    for (names, mut counting) in counts() {
        let call = Times::measure(&names, &mut counting);
        let judging = Times::measure(&names, &mut counting.whether_basic());
        let [reference] = least_times(|_| {
            counting.run(REFERENCE);
        });
        let each = call.each(counting.plan.len());
        println!(
            "| {names} | {} | {} | {} | {} | {} |",
            call.cells(),
            cell(Some(reference)),
            cell(each.proved),
            cell(Some(each.plain)),
            judging.cells(),
        );
        for (ratios, times) in ratios.iter_mut().zip([call, judging]) {
            ratios.extend(times.ratio());
        }
    }
    let [call, judging] = ratios.map(|ratios| cell(mean(&ratios)));
    println!("| geometric mean | | | | {call} | | | | | | {judging} |");
}

fn preceding_actions() {
    println!("\n### Precedence: one action before another\n");
    println!(
        "Nanoseconds for the call, which judges tables, plan and whether it is basic, and for a word"
    );
    println!(
        "of the plan: of the call, and of the words alone, which is the call less the same call with"
    );
    println!(
        "a plan of one action. Two pairs of actions are asked about in each plan: for one the answer"
    );
    println!(
        "is yes, for the other no, with a place at the front. Behind the judging the plain version"
    );
    println!(
        "takes one pass over the words, and the library two. Crusted coin: the plan that the bench"
    );
    println!(
        "comes to. Deep: a chain of actions. Wide: a sum of products, behind two actions. Random:"
    );
    println!("sums and products drawn at random, behind one action.\n");
    println!("| plan | words | answer | call: proved | plain | proved/plain | a word: proved | plain | words alone: proved | plain | proved/plain |");
    println!("|---|--:|---|--:|--:|--:|--:|--:|--:|--:|--:|");
    let mut ratios: [Vec<f64>; 2] = Default::default();
    for (cells, asking) in precedences() {
        let words = asking.plan.len();
        let without_words = asking.of_one_action();
        row_by_parts(&cells, asking, without_words, words, &mut ratios);
    }
    let [call, alone] = ratios.map(|ratios| cell(mean(&ratios)));
    println!("| geometric mean | | | | | {call} | | | | | {alone} |");
}

fn fixed_forms() {
    println!("\n### Fixed forms: plans of many shapes\n");
    println!(
        "Nanoseconds for the call, which judges tables, plan and whether it is basic, and for a word"
    );
    println!(
        "of the plan; the area is as long as the plan. Form: the words of the form. Judging: what"
    );
    println!(
        "`judge_plan` of the same plan takes in the proved library, and how many times as long its"
    );
    println!("call is. Behind the judging the plain version sorts with Rust's own sort.\n");
    println!(
        "Crusted coin: the plan that the bench comes to. Action: a plan of one action. Sorted,"
    );
    println!(
        "reversed, shuffled: a sum of different chains of eight actions in these orders. To the"
    );
    println!(
        "right: the shuffled one, grouped to the right. Equal: a sum of equal chains. Deep: a chain"
    );
    println!(
        "of actions. Comb: 2 + 1·(2 + 1·(…)). Doubled: 1·(x + x), where x is the same again. Random:"
    );
    println!(
        "sums and products drawn at random. Actions: a sum of actions drawn at random. Small: a sum"
    );
    println!(
        "of actions and products of two, drawn and grouped at random. Late: a sum of summands of 129"
    );
    println!(
        "words that differ in their last words alone. Halves: 1·x + 1·y, where x and y are the same"
    );
    println!(
        "again and differ in their last words alone. Steep: such summands in such summands, in an"
    );
    println!("order in which merging runs has to compare them most. Where 31 actions are named, tables of");
    println!("31 actions; else those of 4, but for the bench.\n");
    println!("| plan | words | form | call: proved | plain | proved/plain | a word: proved | plain | judging | call/judging |");
    println!("|---|--:|--:|--:|--:|--:|--:|--:|--:|--:|");
    rows_of_forms();
}

fn rows_of_forms() {
    let (mut to_plain, mut to_judging) = (Vec::new(), Vec::new());
    for (cells, mut fixing) in forms() {
        let (_, _, form) = fixing.run(PLAIN);
        let call = Times::measure(&cells, &mut fixing);
        let judging = Times::measure(&cells, &mut fixing.judging()).proved;
        let each = call.each(fixing.plan.len());
        let times_judging = call.proved.zip(judging).map(|(call, one)| call / one);
        println!(
            "| {cells} | {form} | {} | {} | {} | {} | {} |",
            call.cells(),
            cell(each.proved),
            cell(Some(each.plain)),
            cell(judging),
            cell(times_judging),
        );
        to_plain.extend(call.ratio());
        to_judging.extend(times_judging);
    }
    let last_row = |name: &str, of: fn(&[f64]) -> Option<f64>| {
        let (to_plain, to_judging) = (cell(of(&to_plain)), cell(of(&to_judging)));
        println!("| {name} | | | | | {to_plain} | | | | {to_judging} |");
    };
    last_row("geometric mean", mean);
    last_row("greatest", |ratios| ratios.iter().copied().reduce(f64::max));
}

/// A table of station files, written or read, with the ratios of its rows: of the calls and of the
/// blocks alone.
struct Files {
    ratios: [Vec<f64>; 2],
}

impl Files {
    fn begin() -> Files {
        println!("| plan | words | blocks | call: proved | plain | proved/plain | judging: proved | plain | a block: proved | plain | blocks alone: proved | plain | proved/plain |");
        println!("|---|--:|--:|--:|--:|--:|--:|--:|--:|--:|--:|--:|--:|");
        Files {
            ratios: Default::default(),
        }
    }

    /// A row: what the call takes, the judging of tables and plan, and all blocks, so many.
    fn row(&mut self, cells: &str, call: Times, judging: Times, alone: Times, blocks: usize) {
        let (each, alone) = (call.each(blocks), alone.each(blocks));
        println!(
            "| {cells} | {} | {} | {} | {} | {} | {} |",
            call.cells(),
            cell(judging.proved),
            cell(Some(judging.plain)),
            cell(each.proved),
            cell(Some(each.plain)),
            alone.cells(),
        );
        for (ratios, times) in self.ratios.iter_mut().zip([call, alone]) {
            ratios.extend(times.ratio());
        }
    }

    fn end(self) {
        let [call, alone] = self.ratios.map(|ratios| cell(mean(&ratios)));
        println!("| geometric mean | | | | | {call} | | | | | | | {alone} |");
    }
}

fn written_files() {
    println!("\n### Station files: written\n");
    println!(
        "Nanoseconds for the call, and for a block of 512 bytes; the area is as long as the file."
    );
    println!(
        "Judging: what the same call takes with an area of no bytes, which judges tables and plan by"
    );
    println!(
        "the same code, and is then refused (74). Blocks alone: the call less that, for a block."
    );
    println!(
        "Crusted coin: the bench's own file. Action: a plan of one action. Deep: ∂ of a chain of"
    );
    println!("actions.\n");
    let mut table = Files::begin();
    for (cells, mut writing) in station_files() {
        let call = Times::measure(&cells, &mut writing);
        let judging = Times::measure_answering(&cells, &mut writing.without_blocks(), 74);
        let without_blocks = writing.without_blocks();
        let alone = Times::alone(&mut writing, without_blocks);
        table.row(&cells, call, judging, alone, writing.blocks());
    }
    table.end();
}

fn read_files() {
    println!("\n### Station files: read\n");
    println!(
        "Nanoseconds for the call, and for a block of 512 bytes; the files are those above, and the"
    );
    println!(
        "areas are as long as tables and plan. Blocks alone: what the same call takes with a plan"
    );
    println!(
        "area of no bytes, which judges the blocks and gathers what they hold by the same code, and"
    );
    println!(
        "is then refused (55); for a block. Judging: the call less that, with the copies of tables"
    );
    println!("and plan into the areas.\n");
    let mut table = Files::begin();
    for (cells, writing) in station_files() {
        let mut reading = writing.read_back();
        let call = Times::measure(&cells, &mut reading);
        let alone = Times::measure_answering(&cells, &mut reading.blocks_alone(), 55);
        let blocks_alone = reading.blocks_alone();
        let judging = Times::alone(&mut reading, blocks_alone);
        table.row(&cells, call, judging, alone, writing.blocks());
    }
    table.end();
}
