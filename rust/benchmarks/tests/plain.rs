//! The plain version answers as the reference does, and as the proved library where it is linked,
//! with every lent byte.

use benchmarks::contenders::{Contender, PLAIN, REFERENCE};
use benchmarks::plain;
use benchmarks::workloads::{
    counts, exchanges, exchanges_back, forms, lists, precedences, station_files, stopped_merges,
    texts, walks, Replay, Unfolding, Workload, MERGES, STOPPED_CHAINS,
};
use differential::{compare, Answer, Call, Implementation, Reference};
use reference::plans::LONGEST_PLAN;
use reference::random::cases::{check_case, Checked};
use reference::random::forms::{form_case, FormFixed};
use reference::random::stations::{station_case, write_case, StationRead, StationWritten};
use reference::random::Random;
use reference::Refusal;
use std::collections::BTreeSet;

/// The plain version's unfolding, checker, reader of texts, walks, counts, precedence, fixed forms,
/// and writer and reader of station files; the other calls are the reference's.
struct Plain;

impl Implementation for Plain {
    fn answer(&self, call: Call) -> Answer {
        match call {
            Call::Unfold(tables, plan, allowance, list, a, b) => {
                plain::unfold(tables, plan, allowance, list, a, b).into()
            }
            Call::CheckRewriting(tables, start, claimed, rewriting, a, b) => {
                plain::check_rewriting(tables, start, claimed, rewriting, a, b).into()
            }
            Call::ReadText(tables, text, plan_area) => {
                Answer::counted(plain::read_text(tables, text, plan_area))
            }
            Call::FreshWalk(tables, plan, marks, finish) => Answer::walked(finish, |finished| {
                plain::fresh_walk(tables, plan, marks, finished)
            }),
            Call::Walk(tables, plan, marks, message, finish) => {
                Answer::walked(finish, |finished| {
                    plain::walk(tables, plan, marks, message, finished)
                })
            }
            Call::IsBasic(tables, plan) => {
                Answer::counted(plain::is_basic(tables, plan).map(usize::from))
            }
            Call::CountOrders(tables, plan) => Answer::paths(plain::count_orders(tables, plan)),
            Call::Precedes(tables, plan, first, second) => {
                Answer::precedence(plain::precedes(tables, plan, first, second))
            }
            Call::FixForm(tables, plan, area) => {
                Answer::counted(plain::fix_form(tables, plan, area))
            }
            Call::WriteStation(tables, plan, area) => {
                Answer::counted(plain::write_station(tables, plan, area))
            }
            Call::ReadStation(file, tables_area, plan_area) => {
                Answer::counted(plain::read_station(file, tables_area, plan_area))
            }
            other => Reference.answer(other),
        }
    }
}

#[test]
fn agrees_with_the_reference() {
    if let Err(difference) = compare(&Reference, &Plain, 15_000, 1) {
        panic!("{difference}");
    }
}

/// Makes both calls, and compares every number answered and every lent byte.
fn same(unfolding: &mut Unfolding, contender: Contender) {
    let same = unfolding.outcome(PLAIN) == unfolding.outcome(contender);
    assert!(same, "{:?}", unfolding.plan);
}

/// Merges with a first chain of two actions, and twelve stopped merges, whose plan is loaded twice.
#[test]
fn long_plans_agree_with_the_reference() {
    for merge in MERGES {
        same(&mut merge.longest(2, LONGEST_PLAN).1, REFERENCE);
    }
    same(&mut stopped_merges(STOPPED_CHAINS[0]), REFERENCE);
}

/// The rewritings of the benchmark, in both directions.
#[test]
fn rewritings_agree_with_the_reference() {
    rewritings_agree(REFERENCE);
}

fn rewritings_agree(contender: Contender) {
    let mut all: Vec<(String, Replay)> = exchanges();
    all.extend(exchanges_back());
    for (name, both) in lists() {
        all.extend(both.map(|replay| (name.clone(), replay)));
    }
    for (name, mut replay) in all {
        let (ended, lent) = replay.outcome(PLAIN);
        assert_eq!(ended.0, 0, "{name}");
        assert!((ended, lent) == replay.outcome(contender), "{name}");
    }
}

/// Random rewritings to check, in both directions; every refusal and every ending is met.
#[test]
fn random_rewritings_are_checked_as_by_the_reference() {
    let (random, mut numbers) = (&mut Random::new(1), BTreeSet::new());
    for _ in 0..20_000 {
        let case = check_case(random);
        let (mut a, mut b) = (case.a.clone(), case.b.clone());
        let (tables, start, claimed) = (&case.tables, &case.start, &case.claimed);
        let answer =
            plain::check_rewriting(tables, start, claimed, &case.rewriting, &mut a, &mut b);
        numbers.insert(answer.number());
        let same = Checked { answer, a, b } == case.run();
        assert!(same, "{tables:?} {start:?} {:?}", case.rewriting);
    }
    let wanted = (0..=8).chain(11..=18).chain(31..=33).chain([75]);
    assert_eq!(numbers, wanted.collect());
}

/// The texts of the benchmark.
#[test]
fn texts_agree_with_the_reference() {
    for (name, mut reading) in texts() {
        let same = reading.outcome(PLAIN) == reading.outcome(REFERENCE);
        assert!(same, "{name}");
    }
}

/// The messages of the benchmark.
#[test]
fn messages_agree_with_the_reference() {
    for (name, mut walking) in walks() {
        let same = walking.outcome(PLAIN) == walking.outcome(REFERENCE);
        assert!(same, "{name}");
        let mut beginning = walking.beginning();
        let same = beginning.outcome(PLAIN) == beginning.outcome(REFERENCE);
        assert!(same, "{name}");
    }
}

/// The counts of the benchmark.
#[test]
fn counts_agree_with_the_reference() {
    for (name, mut counting) in counts() {
        assert_eq!(counting.run(PLAIN), counting.run(REFERENCE), "{name}");
        let mut judging = counting.whether_basic();
        assert_eq!(judging.run(PLAIN), judging.run(REFERENCE), "{name}");
    }
}

/// The questions of the benchmark whether one action comes before another.
#[test]
fn precedences_agree_with_the_reference() {
    for (name, mut asking) in precedences() {
        assert_eq!(asking.run(PLAIN), asking.run(REFERENCE), "{name}");
    }
}

/// The fixed forms of the benchmark.
#[test]
fn forms_agree_with_the_reference() {
    forms_agree(REFERENCE);
}

fn forms_agree(contender: Contender) {
    for (name, mut fixing) in forms() {
        let same = fixing.outcome(PLAIN) == fixing.outcome(contender);
        assert!(same, "{name}");
    }
}

/// The station files of the benchmark, written and read; and the same calls, refused for their areas.
#[test]
fn station_files_agree_with_the_reference() {
    station_files_agree(REFERENCE);
}

fn station_files_agree(contender: Contender) {
    fn agrees(name: &str, mut call: impl Workload, contender: Contender) {
        let same = call.outcome(PLAIN) == call.outcome(contender);
        assert!(same, "{name}");
    }
    for (name, writing) in station_files() {
        let reading = writing.read_back();
        agrees(&name, writing.without_blocks(), contender);
        agrees(&name, reading.blocks_alone(), contender);
        agrees(&name, writing, contender);
        agrees(&name, reading, contender);
    }
}

/// The number of an answer.
fn number(answer: Result<usize, Refusal>) -> u8 {
    answer.map_or_else(|refusal| refusal.number, |_| 0)
}

/// Random plans to bring to their form; every refusal is met.
#[test]
fn random_plans_have_the_forms_of_the_reference() {
    let (random, mut numbers) = (&mut Random::new(1), BTreeSet::new());
    for _ in 0..6000 {
        let case = form_case(random);
        let mut area = case.area.clone();
        let answer = plain::fix_form(&case.tables, &case.plan, &mut area);
        numbers.insert(number(answer));
        let same = FormFixed { answer, area } == case.run();
        assert!(same, "{:?} {:?}", case.tables, case.plan);
    }
    let wanted = (0..=8).chain(11..=14).chain([70, 74]);
    assert_eq!(numbers, wanted.collect());
}

/// Random files to write; every refusal is met.
#[test]
fn random_files_are_written_as_by_the_reference() {
    let (random, mut numbers) = (&mut Random::new(1), BTreeSet::new());
    for _ in 0..6000 {
        let case = write_case(random);
        let mut area = case.area.clone();
        let answer = plain::write_station(&case.tables, &case.plan, &mut area);
        numbers.insert(number(answer));
        let same = StationWritten { answer, area } == case.run();
        assert!(same, "{:?} {:?}", case.tables, case.plan);
    }
    let wanted = (0..=8).chain(11..=14).chain([74]);
    assert_eq!(numbers, wanted.collect());
}

/// Random files to read, right and damaged; every refusal is met. The tables of a file are never too
/// long or too short, which is refusal 1.
#[test]
fn random_files_are_read_as_by_the_reference() {
    let (random, mut numbers) = (&mut Random::new(1), BTreeSet::new());
    for _ in 0..6000 {
        let case = station_case(random);
        let (mut tables, mut plan) = (case.tables.clone(), case.plan.clone());
        let answer = plain::read_station(&case.file, &mut tables, &mut plan);
        numbers.insert(number(answer));
        let read = StationRead {
            answer,
            tables,
            plan,
        };
        assert!(read == case.run(), "{:?}", case.file);
    }
    let wanted = [0].into_iter().chain(2..=8).chain(11..=14).chain(51..=55);
    assert_eq!(numbers, wanted.collect());
}

/// The rewritings of the benchmark, in both directions.
#[cfg(feature = "archive")]
#[test]
fn rewritings_agree_with_the_proved_library() {
    rewritings_agree(benchmarks::contenders::PROVED.expect("the archive is linked"));
}

/// The judgements of the benchmark.
#[cfg(feature = "archive")]
#[test]
fn judgements_agree_with_the_proved_library() {
    let proved = benchmarks::contenders::PROVED.expect("the archive is linked");
    for (name, mut judging) in benchmarks::workloads::judgements() {
        assert_eq!(judging.run(PLAIN), judging.run(proved), "{name}");
    }
}

/// The counts of the benchmark.
#[cfg(feature = "archive")]
#[test]
fn counts_agree_with_the_proved_library() {
    let proved = benchmarks::contenders::PROVED.expect("the archive is linked");
    for (name, mut counting) in counts() {
        assert_eq!(counting.run(PLAIN), counting.run(proved), "{name}");
        let mut judging = counting.whether_basic();
        assert_eq!(judging.run(PLAIN), judging.run(proved), "{name}");
    }
}

/// The questions of the benchmark whether one action comes before another.
#[cfg(feature = "archive")]
#[test]
fn precedences_agree_with_the_proved_library() {
    let proved = benchmarks::contenders::PROVED.expect("the archive is linked");
    for (name, mut asking) in precedences() {
        assert_eq!(asking.run(PLAIN), asking.run(proved), "{name}");
    }
}

/// The fixed forms of the benchmark.
#[cfg(feature = "archive")]
#[test]
fn forms_agree_with_the_proved_library() {
    forms_agree(benchmarks::contenders::PROVED.expect("the archive is linked"));
}

/// The station files of the benchmark, written and read; and the same calls, refused for their areas.
#[cfg(feature = "archive")]
#[test]
fn station_files_agree_with_the_proved_library() {
    station_files_agree(benchmarks::contenders::PROVED.expect("the archive is linked"));
}

/// The messages of the benchmark.
#[cfg(feature = "archive")]
#[test]
fn messages_agree_with_the_proved_library() {
    let proved = benchmarks::contenders::PROVED.expect("the archive is linked");
    for (name, mut walking) in walks() {
        let same = walking.outcome(PLAIN) == walking.outcome(proved);
        assert!(same, "{name}");
        let mut beginning = walking.beginning();
        let same = beginning.outcome(PLAIN) == beginning.outcome(proved);
        assert!(same, "{name}");
    }
}

/// The texts of the benchmark.
#[cfg(feature = "archive")]
#[test]
fn texts_agree_with_the_proved_library() {
    let proved = benchmarks::contenders::PROVED.expect("the archive is linked");
    for (name, mut reading) in texts() {
        let same = reading.outcome(PLAIN) == reading.outcome(proved);
        assert!(same, "{name}");
    }
}

/// The longest plans of the benchmark, finished, and ended by the allowance.
#[cfg(feature = "archive")]
#[test]
fn longest_plans_agree_with_the_proved_library() {
    use benchmarks::{contenders::PROVED, workloads::longest_sum, workloads::Merge};
    let proved = PROVED.expect("the archive is linked");
    let chains = |merge: Merge| (2..=5).map(move |first| merge.longest(first, LONGEST_PLAN).1);
    let merges = MERGES.into_iter().flat_map(chains);
    let stopped = STOPPED_CHAINS.map(stopped_merges);
    let sum = longest_sum(LONGEST_PLAN).1;
    for mut unfolding in merges.chain(stopped).chain([sum]) {
        same(&mut unfolding, proved);
        unfolding.allowance = unfolding.steps as u32 * 3 / 4;
        same(&mut unfolding, proved);
    }
}
