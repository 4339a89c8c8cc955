//! What allowances, lists and areas decide of an unfolding, on the plans of docs/ALLOWANCES.md: the
//! figures of that page are computed here, and the rows in which they stand must be on the page.

use aberulwy::*;
use std::fs;
use std::path::Path;

/// The largest allowance.
const MOST_STEPS: u32 = u32::MAX;
/// A list that holds every run of the page.
const LONG_LIST: usize = 3 * 40_000;
/// What the program lends.
const PROGRAM: Limits = limits(5_000, 15_000, 8_192);
/// Words of the page's plans.
const MERGE: u8 = 66;
const SEQUENCE: u8 = 65;
const PRIORITY: u8 = 70;
const ENCAPSULATION: u8 = 80;

/// What an unfolding is allowed and lent.
#[derive(Clone, Copy)]
struct Limits {
    allowance: u32,
    list: usize,
    areas: usize,
}

const fn limits(allowance: u32, list: usize, areas: usize) -> Limits {
    Limits {
        allowance,
        list,
        areas,
    }
}

const AMPLE: Limits = limits(MOST_STEPS, LONG_LIST, LONGEST_PLAN);

/// What a run answered and left.
#[derive(PartialEq)]
struct Run {
    answer: Unfolded,
    list: Vec<u8>,
    a: Vec<u8>,
    b: Vec<u8>,
}

impl Run {
    fn reached(&self) -> &[u8] {
        self.answer.reached(&self.a, &self.b)
    }
}

/// Tables and a plan.
struct Tray {
    tables: Vec<u8>,
    plan: Vec<u8>,
}

impl Tray {
    /// The file of examples/ at this path.
    fn stored(path: &str) -> Tray {
        let file = fs::read(root().join("examples").join(path).with_extension("station")).unwrap();
        let (mut tables, mut plan) = (vec![0; TABLES_LENGTH], vec![0; LONGEST_PLAN]);
        let size = read_station(&file, &mut tables, &mut plan).unwrap();
        plan.truncate(size);
        Tray { tables, plan }
    }

    /// The same tables with another plan.
    fn with(&self, plan: Vec<u8>) -> Tray {
        Tray {
            tables: self.tables.clone(),
            plan,
        }
    }

    /// Unfolded in a list and areas that hold this byte at first.
    fn run_over(&self, limits: Limits, byte: u8) -> Run {
        let mut list = vec![byte; limits.list];
        let (mut a, mut b) = (vec![byte; limits.areas], vec![byte; limits.areas]);
        let answer = unfold(
            &self.tables,
            &self.plan,
            limits.allowance,
            &mut list,
            &mut a,
            &mut b,
        )
        .unwrap();
        Run { answer, list, a, b }
    }

    fn run(&self, limits: Limits) -> Run {
        self.run_over(limits, 0xEE)
    }

    /// The ending, after how many steps.
    fn ends(&self, limits: Limits) -> (Ending, usize) {
        let answer = self.run(limits).answer;
        (answer.ending, answer.steps)
    }

    /// The words of the longest plan of a run that finishes: the least areas in which it does.
    fn longest(&self) -> usize {
        let (mut short, mut enough) = (self.plan.len() - 1, LONGEST_PLAN);
        while enough - short > 1 {
            let areas = (short + enough) / 2;
            match self.ends(Limits { areas, ..AMPLE }).0 {
                Ending::Finished => enough = areas,
                Ending::AreasFull => short = areas,
                Ending::AllowanceSpent | Ending::ListFull => unreachable!(),
            }
        }
        enough
    }

    /// The fixed form of the plan that it finishes at.
    fn form(&self) -> Vec<u8> {
        let run = self.run(AMPLE);
        let mut form = vec![0; run.answer.size];
        let size = fix_form(&self.tables, run.reached(), &mut form).unwrap();
        form.truncate(size);
        form
    }

    /// "S, L", or how it ends without finishing.
    fn cell(&self) -> String {
        match self.ends(AMPLE) {
            (Ending::Finished, steps) => format!("{}, {}", number(steps), number(self.longest())),
            (Ending::AreasFull, steps) => format!("36 after {}", number(steps)),
            (Ending::AllowanceSpent | Ending::ListFull, _) => unreachable!(),
        }
    }
}

fn root() -> &'static Path {
    Path::new(concat!(env!("CARGO_MANIFEST_DIR"), "/../.."))
}

/// A number as the page has it, with commas.
fn number(n: usize) -> String {
    let digits = n.to_string();
    let mut written = String::new();
    for (i, digit) in digits.chars().enumerate() {
        if i > 0 && (digits.len() - i).is_multiple_of(3) {
            written.push(',');
        }
        written.push(digit);
    }
    written
}

/// A page of the repository has this text.
fn on(page: &str, text: &str) {
    let words = fs::read_to_string(root().join(page)).unwrap();
    assert!(words.contains(text), "{page} does not have: {text}");
}

fn on_the_page(text: &str) {
    on("docs/ALLOWANCES.md", text);
}

const BENCH: [&str; 6] = [
    "clean-coin",
    "clean-coin-hub-waits",
    "crusted-coin",
    "crusted-coin-hub-waits",
    "light-coin",
    "light-coin-hub-waits",
];

#[test]
fn the_bench_needs_what_the_page_says() {
    for name in BENCH {
        let tray = Tray::stored(&format!("bench/{name}"));
        let run = tray.run(AMPLE);
        assert_eq!(run.answer.ending, Ending::Finished);
        let counts = count_orders(&tray.tables, run.reached()).unwrap();
        let (steps, size) = (run.answer.steps, run.answer.size);
        on_the_page(&format!(
            "| `{name}` | {} | {} | {} | {size} | {} | {} |\n",
            number(steps),
            tray.longest(),
            number(3 * steps),
            counts.orders,
            counts.stuck
        ));
    }
}

#[test]
fn one_short_exact_and_larger() {
    for name in BENCH {
        let tray = Tray::stored(&format!("bench/{name}"));
        let (steps, longest) = (tray.run(AMPLE).answer.steps, tray.longest());
        let allowance = u32::try_from(steps).unwrap();
        let just = limits(allowance, 3 * steps, longest);
        let exact = tray.run(just);
        assert_eq!(
            (exact.answer.ending, exact.answer.steps),
            (Ending::Finished, steps)
        );
        for larger in [allowance + 1, 2 * allowance, MOST_STEPS] {
            let again = tray.run_over(
                Limits {
                    allowance: larger,
                    ..just
                },
                0x11,
            );
            assert!(again == exact, "{name}, allowance {larger}");
        }
        for fewer in [0, 1, allowance / 2, allowance - 1] {
            let stopped = tray.run(Limits {
                allowance: fewer,
                ..just
            });
            assert_eq!(stopped.answer.ending, Ending::AllowanceSpent);
            assert_eq!(stopped.answer.steps, fewer as usize);
            let first = stopped.answer.rewriting(&stopped.list);
            assert!(exact.list.starts_with(first));
            let rest = tray.with(stopped.reached().to_vec()).run(just);
            assert_eq!(rest.answer.ending, Ending::Finished);
            assert_eq!(rest.answer.steps + fewer as usize, steps);
            assert!(rest.reached() == exact.reached());
        }
        for allowance in [allowance, MOST_STEPS] {
            let list = Limits {
                allowance,
                list: 3 * steps - 1,
                ..just
            };
            assert_eq!(tray.ends(list), (Ending::ListFull, steps - 1));
            let areas = Limits {
                allowance,
                areas: longest - 1,
                ..just
            };
            assert_eq!(tray.ends(areas).0, Ending::AreasFull);
        }
    }
}

#[test]
fn the_crusted_coin_with_other_limits() {
    let tray = Tray::stored("bench/crusted-coin");
    let rows = [
        (1_846, None, None),
        (1_847, None, None),
        (MOST_STEPS, None, None),
        (1_847, Some(5_541), Some(521)),
        (MOST_STEPS, Some(5_540), None),
        (MOST_STEPS, None, Some(520)),
        (1_178, None, Some(520)),
    ];
    for (allowance, list, areas) in rows {
        let (ending, steps) = tray.ends(limits(
            allowance,
            list.unwrap_or(PROGRAM.list),
            areas.unwrap_or(PROGRAM.areas),
        ));
        let ending = match ending {
            Ending::Finished => "finished",
            Ending::AllowanceSpent => "34",
            Ending::ListFull => "35",
            Ending::AreasFull => "36",
        };
        let cell = |n: Option<usize>| n.map_or(String::new(), |n| format!("{} ", number(n)));
        on_the_page(&format!(
            "| {} | {}| {}| {ending} after {} steps |\n",
            number(allowance as usize),
            cell(list),
            cell(areas),
            number(steps)
        ));
    }
    on_the_page("stops after 1,000 steps, and from there it needs 847 more; so it needs 1,847");
    let stopped = tray.run(Limits {
        allowance: 1_000,
        ..PROGRAM
    });
    let rest = tray.with(stopped.reached().to_vec());
    assert_eq!(rest.ends(PROGRAM), (Ending::Finished, 847));
}

#[test]
fn no_allowance_helps_the_stopped_file() {
    let tray = Tray::stored("stopped/34-allowance");
    assert_eq!(tray.ends(PROGRAM), (Ending::AllowanceSpent, 5_000));
    let larger = Limits {
        allowance: MOST_STEPS,
        ..PROGRAM
    };
    assert_eq!(tray.ends(larger), (Ending::ListFull, 5_000));
    let longer = Limits {
        list: LONG_LIST,
        ..larger
    };
    assert_eq!(tray.ends(longer), (Ending::AreasFull, 8_090));
    assert_eq!(tray.ends(AMPLE), (Ending::AreasFull, 15_631));
    on_the_page("after 8,090 steps in areas of 8,192 words, after 15,631 in areas of 16,384");
}

/// The tables for k messages: 3i + 1 and 3i + 2 meet as 3i + 3, and set i blocks the first two.
fn message_tables(k: u8) -> Vec<u8> {
    let mut tables = vec![0; TABLES_LENGTH];
    tables[0] = 3 * k;
    for i in 0..usize::from(k) {
        let (offer, awaited) = (3 * i + 1, 3 * i + 2);
        for (a, b) in [(offer, awaited), (awaited, offer)] {
            tables[1 + 32 * a + b] = u8::try_from(3 * i + 3).unwrap();
        }
        for action in [offer, awaited] {
            tables[2049 + 32 * i + action] = 1;
        }
    }
    for action in 1..=3 * usize::from(k) {
        tables[1025 + action] = 1;
    }
    tables
}

/// The hub that awaits k messages in any order.
fn hub(k: u8) -> Vec<u8> {
    let mut plan = vec![2];
    for i in 1..k {
        plan.extend([3 * i + 2, MERGE]);
    }
    plan
}

fn at_the_end(k: u8) -> Vec<u8> {
    let devices = (0..k).flat_map(|i| [3 * i + 1, MERGE]);
    let blocks = (0..k).map(|i| ENCAPSULATION + i);
    hub(k).into_iter().chain(devices).chain(blocks).collect()
}

fn device_by_device(k: u8) -> Vec<u8> {
    let devices = (0..k).flat_map(|i| [3 * i + 1, MERGE, ENCAPSULATION + i]);
    hub(k).into_iter().chain(devices).collect()
}

fn in_pairs(k: u8) -> Vec<u8> {
    let pair = |i: u8| [3 * i + 2, 3 * i + 1, MERGE, ENCAPSULATION + i];
    let mut plan = pair(0).to_vec();
    for i in 1..k {
        plan.extend(pair(i));
        plan.push(MERGE);
    }
    plan
}

#[test]
fn messages_in_any_order() {
    for k in 2..=6 {
        let ways = [at_the_end(k), device_by_device(k), in_pairs(k)];
        let trays = ways.map(|plan| Tray {
            tables: message_tables(k),
            plan,
        });
        let [end, devices, pairs] = &trays;
        let run = pairs.run(AMPLE);
        let counts = count_orders(&pairs.tables, run.reached()).unwrap();
        on_the_page(&format!(
            "| {k} | {} | {} | {} | {} | {} |\n",
            end.cell(),
            devices.cell(),
            pairs.cell(),
            number(run.answer.size),
            counts.orders
        ));
        for tray in [end, devices] {
            if tray.ends(AMPLE).0 == Ending::Finished {
                assert!(tray.form() == pairs.form(), "{k} messages");
            }
        }
        let finished = trays.map(|tray| tray.ends(PROGRAM).0 == Ending::Finished);
        assert_eq!(finished, [k <= 2, k <= 3, k <= 6], "{k} messages");
    }
}

#[test]
fn the_first_page_has_the_same_figures() {
    let steps = |plan: Vec<u8>, k: u8| {
        let tables = message_tables(k);
        let (ending, steps) = Tray { tables, plan }.ends(AMPLE);
        assert_eq!(ending, Ending::Finished);
        number(steps)
    };
    let (pairs, devices) = (in_pairs(2), device_by_device(2));
    on(
        "README.md",
        &format!("{} steps instead of {}", steps(pairs, 2), steps(devices, 2)),
    );
    let paired = [4, 5].map(|k| steps(in_pairs(k), k));
    on(
        "README.md",
        &format!("it is {} steps, with five {}", paired[0], paired[1]),
    );
    let blocked = [4, 5].map(|k| steps(device_by_device(k), k));
    on(
        "README.md",
        &format!("takes {} and {}", blocked[0], blocked[1]),
    );
}

#[test]
fn the_bench_written_otherwise() {
    let hasty = Tray::stored("bench/crusted-coin");
    let sequence = [5, 11, 8, SEQUENCE, SEQUENCE];
    let set = |i: u8| ENCAPSULATION + i;
    let weight = [2, 13, 1, SEQUENCE, MERGE, set(3)];
    let devices = [4, MERGE, set(0), 7, MERGE, set(1), 10, MERGE, set(2)];
    let end = [MERGE, PRIORITY];
    let paired = hasty.with([&weight[..], &sequence, &devices, &end].concat());
    assert_eq!(paired.ends(AMPLE), (Ending::Finished, 397));
    assert!(paired.form() == hasty.form());
    on_the_page("397 steps instead of 1,847, to the same tree");

    let waits = Tray::stored("bench/crusted-coin-hub-waits");
    let hub = [2, 5, MERGE, 11, 8, SEQUENCE, SEQUENCE];
    let three = [4, MERGE, 7, MERGE, 10, MERGE];
    let balance = [13, 1, SEQUENCE, MERGE];
    let sets = [set(0), set(1), set(2)];
    let late = waits.with([&hub[..], &three, &sets, &balance, &[set(3), PRIORITY]].concat());
    assert_eq!(late.ends(AMPLE), (Ending::Finished, 7_105));
    assert!(late.form() == waits.form());
    let last = waits.with([&hub[..], &three, &balance, &sets, &[set(3), PRIORITY]].concat());
    assert_eq!(last.ends(AMPLE).0, Ending::AreasFull);
    assert_eq!(waits.ends(AMPLE), (Ending::Finished, 1_030));
    on_the_page("needs 1,030 steps so, 7,105 with three devices merged before they are blocked");
}
