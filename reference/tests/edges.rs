//! The random cases come to the edges: each kind of case named here is met.

use reference::checking::{self, step};
use reference::laws::apply;
use reference::plans::{judge_plan, judged_orders, subplan, Counts, LONGEST_PLAN};
use reference::random::cases::{check_case, unfold_case, CheckCase, UnfoldCase};
use reference::random::plans::damaged_plan;
use reference::random::rewritings::spans;
use reference::random::stations::{write_case, WriteCase};
use reference::random::tables::damaged_tables;
use reference::random::Random;
use reference::random::{cases, walks};
use reference::records::{cut, Record};
use reference::refusals::{Place, Refusal};
use reference::tables::{below, judge_tables};
use reference::unfolding;
use std::collections::BTreeMap;

/// How often each kind was met.
#[derive(Default)]
struct Met(BTreeMap<&'static str, usize>);

impl Met {
    fn note(&mut self, kind: &'static str, here: bool) {
        *self.0.entry(kind).or_default() += usize::from(here);
    }

    fn assert_all(&self) {
        let missing: Vec<_> = self.0.iter().filter(|(_, &count)| count == 0).collect();
        assert!(missing.is_empty(), "{missing:?}");
    }
}

#[test]
fn edges_of_tables() {
    let (mut random, mut met) = (Random::new(41), Met::default());
    for _ in 0..20_000 {
        let tables = damaged_tables(&mut random);
        let Err(refusal) = judge_tables(&tables) else {
            met.note("accepted though damaged", true);
            continue;
        };
        match (refusal.number, refusal.place) {
            (1, _) => note_length(&mut met, tables.len()),
            (2, _) => met.note("2 above", tables[0] > 31),
            (3, Place::Byte(index)) => note_entry(&mut met, &tables, index),
            (4, Place::Byte(index)) => {
                met.note("4 in the row", index <= 32);
                met.note("4 in the column", index > 32);
                met.note("4 at 0|0", index == 1);
            }
            (6, Place::Triple(a, b, c)) => {
                met.note("6 with three actions", a != b && b != c && a != c);
                met.note("6 with two actions", a == b || b == c || a == c);
                met.note("6 late", a > 3);
            }
            (7, Place::Byte(index)) => {
                met.note("7 first", index == 1026);
                met.note("7 last", index == 1025 + tables[0] as usize);
            }
            (8, Place::Triple(a, b, c)) => note_order(&mut met, &tables, (a, b, c)),
            _ => {}
        }
    }
    met.assert_all();
}

fn note_length(met: &mut Met, length: usize) {
    met.note("1 empty", length == 0);
    met.note("1 one byte less", length == 2304);
    met.note("1 one byte more", length == 2306);
}

fn note_entry(met: &mut Met, tables: &[u8], index: usize) {
    let (n, value) = (tables[0] as usize, tables[index] as usize);
    let (row, column) = ((index - 1) % 1024 / 32, (index - 1) % 32);
    let (communication, priority) = (index < 1025, (1025..2049).contains(&index));
    met.note("3 communication n + 1", communication && value == n + 1);
    met.note(
        "3 communication row",
        communication && row == n + 1 && value <= n,
    );
    met.note(
        "3 communication column",
        communication && column == n + 1 && value <= n,
    );
    met.note("3 priority 2", priority && value == 2);
    met.note("3 priority row", priority && row > n && value == 1);
    met.note("3 priority column", priority && column > n && value == 1);
    met.note(
        "3 set with dead stop",
        index >= 2049 && column == 0 && value == 1,
    );
    met.note(
        "3 set column",
        index >= 2049 && column == n + 1 && value == 1,
    );
    met.note("3 set 7", index >= 2049 + 7 * 32);
    met.note("3 last byte", index == 2304);
    met.note("3 with 31 actions", n == 31);
}

fn note_order(met: &mut Met, tables: &[u8], (a, b, c): (u8, u8, u8)) {
    let reflexive = below(tables, a, a);
    let asymmetric = !(below(tables, a, b) && below(tables, b, a));
    met.note("8 reflexive", reflexive && a > 0);
    met.note("8 dead stop below itself", reflexive && a == 0);
    met.note("8 not asymmetric", !reflexive && !asymmetric && a > 0);
    met.note("8 below dead stop", !reflexive && !asymmetric && a == 0);
    met.note("8 not transitive", !reflexive && asymmetric);
    met.note(
        "8 not transitive, c not 0",
        !reflexive && asymmetric && c > 0,
    );
}

#[test]
fn edges_of_plans() {
    let (mut random, mut met) = (Random::new(42), Met::default());
    let mut tables = vec![0; 2305];
    for _ in 0..6000 {
        let n = random.between(1, 31) as u8;
        tables[0] = n;
        let plan = damaged_plan(&mut random, n);
        let Err(refusal) = judge_plan(&tables, &plan) else {
            met.note("accepted though damaged", true);
            continue;
        };
        let last = plan.len().wrapping_sub(1);
        match (refusal.number, refusal.place) {
            (11, _) => {
                met.note("11 empty", plan.is_empty());
                met.note("11 one word more", plan.len() == LONGEST_PLAN + 1);
            }
            (12, Place::Byte(index)) => {
                met.note("12 first", index == 0);
                met.note("12 last", index == last);
                met.note("12 action n + 1", plan[index] == n + 1 && n < 31);
                for bad in [31, 32, 63, 71, 79, 88, 255] {
                    met.note(name_of(bad), plan[index] == bad);
                }
            }
            (13, Place::Byte(index)) => {
                met.note("13 first", index == 0);
                met.note("13 last", index == last);
                met.note("13 before 12", plan.iter().any(|&byte| byte > 87));
            }
            _ => met.note("14 with the longest plan", plan.len() == LONGEST_PLAN),
        }
    }
    met.assert_all();
}

#[test]
fn edges_of_counts() {
    let (mut random, mut met) = (Random::new(46), Met::default());
    for _ in 0..6000 {
        let (tables, plan) = cases::tables_and_plan(&mut random);
        note_counts(&mut met, judged_orders(&tables, &plan).ok());
    }
    met.assert_all();
    let mut met = Met::default();
    for _ in 0..6000 {
        let (tables, plan) = walks::tables_and_plan(&mut random);
        let counted = judged_orders(&tables, &plan).ok();
        note_counts(&mut met, counted);
        let Some(Counts { orders, stuck }) = counted else {
            continue;
        };
        met.note("dead stop alone", plan == [0]);
        met.note(
            "one stuck behind actions",
            plan.len() > 1 && (orders, stuck) == (0, 1),
        );
        met.note("as many stuck as orders", orders > 1 && stuck == orders);
        met.note("one order, more stuck", orders == 1 && stuck > 2);
        met.note("one stuck, more orders", stuck == 1 && orders > 2);
        met.note("orders above a byte", orders > 255);
        met.note("stuck above a byte", stuck > 255);
        met.note("both above a byte", orders > 255 && stuck > 255);
        met.note("above a byte, none stuck", orders > 255 && stuck == 0);
        met.note("above a byte, no order", orders == 0 && stuck > 255);
        let last = plan.len() + 1 >= LONGEST_PLAN;
        met.note("a longest plan", last && orders + stuck > 1);
    }
    met.assert_all();
}

fn note_counts(met: &mut Met, counted: Option<Counts>) {
    let (orders, stuck) = counted.map_or((0, 0), |counts| (counts.orders, counts.stuck));
    met.note("refused", counted.is_none());
    met.note("not basic", counted.is_some() && orders + stuck == 0);
    met.note("no order, one stuck", (orders, stuck) == (0, 1));
    met.note("no order, several stuck", orders == 0 && stuck > 1);
    met.note("one order, none stuck", (orders, stuck) == (1, 0));
    met.note("several orders, none stuck", orders > 1 && stuck == 0);
    met.note("orders and stuck", orders > 0 && stuck > 0);
    met.note("more stuck than orders", orders > 0 && stuck > orders);
    met.note("more orders than stuck", stuck > 0 && orders > stuck);
}

fn name_of(byte: u8) -> &'static str {
    match byte {
        31 => "12 byte 31",
        32 => "12 byte 32",
        63 => "12 byte 63",
        71 => "12 byte 71",
        79 => "12 byte 79",
        88 => "12 byte 88",
        _ => "12 byte 255",
    }
}

#[test]
fn edges_of_unfolding() {
    let (mut random, mut met) = (Random::new(47), Met::default());
    for _ in 0..6000 {
        let case = unfold_case(&mut random);
        match case.run().answer {
            unfolding::Answer::Ended {
                number,
                steps,
                size,
            } => note_unfolded(&mut met, &case, number, steps, size),
            unfolding::Answer::Refused(refusal) if refusal.number == 15 => {
                let room = case.a.len().min(case.b.len());
                met.note("15 without room", room == 0);
                met.note("15 by one word", room + 1 == case.plan.len());
                met.note("15 by area A", case.a.len() < case.b.len());
                met.note("15 by area B", case.b.len() < case.a.len());
            }
            _ => {}
        }
    }
    met.assert_all();
}

fn note_unfolded(met: &mut Met, case: &UnfoldCase, number: u8, steps: usize, size: usize) {
    let room = case.a.len().min(case.b.len());
    met.note("finished without a step", number == 0 && steps == 0);
    met.note(
        "finished in A",
        number == 0 && steps > 0 && steps.is_multiple_of(2),
    );
    met.note("finished in B", number == 0 && steps % 2 == 1);
    met.note("finished after a thousand", number == 0 && steps > 1000);
    met.note("finished, full area", number == 0 && size == room);
    met.note(
        "finished, allowance used",
        number == 0 && steps == case.allowance as usize,
    );
    met.note(
        "finished, full list",
        number == 0 && 3 * steps == case.list.len(),
    );
    met.note(
        "finished, list over",
        number == 0 && !case.list.len().is_multiple_of(3),
    );
    met.note("34 without a step", number == 34 && steps == 0);
    met.note("34 after steps", number == 34 && steps > 0);
    met.note(
        "34 before 35",
        number == 34 && case.list.len() < 3 * steps + 3,
    );
    met.note("35 without a list", number == 35 && case.list.is_empty());
    met.note(
        "35, one byte over",
        number == 35 && case.list.len() % 3 == 1,
    );
    met.note(
        "35, two bytes over",
        number == 35 && case.list.len() % 3 == 2,
    );
    met.note("35 after steps", number == 35 && steps > 0);
    met.note("36 without a step", number == 36 && steps == 0);
    met.note(
        "36 in A",
        number == 36 && steps > 0 && steps.is_multiple_of(2),
    );
    met.note("36 in B", number == 36 && steps % 2 == 1);
    met.note(
        "36, areas above the longest",
        number == 36 && room > LONGEST_PLAN,
    );
}

#[test]
fn edges_of_checking() {
    let (mut random, mut met) = (Random::new(44), Met::default());
    for _ in 0..24_000 {
        let case = check_case(&mut random);
        match case.run().answer {
            checking::Answer::Accepted { steps, size } => {
                met.note("accepted without a step", steps == 0);
                met.note("accepted in A", steps > 0 && steps.is_multiple_of(2));
                met.note("accepted in B", steps % 2 == 1);
                met.note(
                    "accepted, full area",
                    size == case.a.len().min(case.b.len()),
                );
                let records = cut(&case.rewriting).unwrap();
                let backwards = records
                    .iter()
                    .filter(|record| record.left.is_some())
                    .count();
                met.note("accepted, all backwards", backwards == steps && steps > 1);
                met.note("accepted, both ways", backwards > 0 && backwards < steps);
                let mut lefts = records.iter().filter_map(|record| record.left);
                met.note(
                    "accepted, a long left side",
                    lefts.any(|left| left.len() > 255),
                );
            }
            checking::Answer::Back {
                number,
                steps,
                size,
            } => note_back(&mut met, &case, number, steps, size),
            checking::Answer::Refused(refusal) => {
                let step = refusal.printed();
                met.note("17 at the first step", refusal.number == 17 && step == 0);
                met.note("17 at a later step", refusal.number == 17 && step > 0);
                note_claimed(&mut met, &case, refusal.number);
                if let Some(records) = cut(&case.rewriting) {
                    note_refused_records(&mut met, &case, refusal, &records);
                }
            }
        }
    }
    met.assert_all();
}

fn note_back(met: &mut Met, case: &CheckCase, number: u8, steps: usize, size: usize) {
    let room = case.a.len().min(case.b.len()).min(LONGEST_PLAN);
    let records = cut(&case.rewriting).unwrap();
    if number < 33 {
        let made = &records[..steps];
        note_backwards(met, case, number, made, &records[steps], size);
    }
    if number == 31 {
        let place = records[steps].place;
        met.note("31 just past the end", place == size);
        met.note("31 at 65,535", place == 65_535);
        met.note("31 within the plan", place < size);
        met.note("31 at the last word", place + 1 == size);
        met.note("31 without a step", steps == 0);
        met.note("31 in A", steps > 0 && steps.is_multiple_of(2));
        met.note("31 in B", steps % 2 == 1);
    }
    met.note("32 without a step", number == 32 && steps == 0);
    met.note("32 after steps", number == 32 && steps > 0);
    met.note("33 without a step", number == 33 && steps == 0);
    met.note("33 after steps", number == 33 && steps > 0);
    met.note(
        "33, claim longer than C",
        number == 33 && case.claimed.len() > room,
    );
}

fn note_claimed(met: &mut Met, case: &CheckCase, number: u8) {
    if number == 18 {
        let claimed = judge_plan(&case.tables, &case.claimed).unwrap_err().number;
        met.note("18 for 11", claimed == 11);
        met.note("18 for 12", claimed == 12);
        met.note("18 for 13", claimed == 13);
        met.note("18 for 14", claimed == 14);
        let room = case.a.len().min(case.b.len());
        met.note("18 before 15", case.start.len() > room);
    }
    let odd = cut(&case.rewriting).is_none();
    met.note("15 before 16", number == 15 && odd);
    if number == 16 {
        note_cut_short(met, case);
    }
}

/// Where the last record is cut short, and what else there is in the list.
fn note_cut_short(met: &mut Met, case: &CheckCase) {
    let spans = spans(&case.rewriting);
    let whole = spans.last().map_or(0, |last| last.end);
    let (before, rest) = case.rewriting.split_at(whole);
    let back = (129..=160).contains(&rest[0]);
    met.note("16, one byte over", rest.len() == 1 && !back);
    met.note("16, two bytes over", rest.len() == 2 && !back);
    met.note("16, one byte, backwards", rest.len() == 1 && back);
    met.note("16, two bytes, backwards", rest.len() == 2 && back);
    met.note("16 before the length", rest.len() == 3);
    met.note("16 in the length", rest.len() == 4);
    met.note("16 before the words", rest.len() == 5);
    met.note("16 in the words", rest.len() > 6);
    let length = |rest: &[u8]| rest[3] as usize + 256 * rest[4] as usize;
    let last = rest.len() > 5 && rest.len() - 5 + 1 == length(rest);
    met.note("16 before the last word", last);
    met.note(
        "16, a multiple of three",
        case.rewriting.len().is_multiple_of(3),
    );
    met.note("16, a first byte unknown", rest[0] == 0 || rest[0] == 128);
    let records = cut(before).unwrap();
    let no_plan = records.iter().any(|record| carries_no_plan(case, record));
    let unknown = records.iter().any(|record| record.law().is_none());
    met.note("16 before 17", unknown);
    met.note("16 before 75", no_plan);
}

fn carries_no_plan(case: &CheckCase, record: &Record) -> bool {
    let refused = |left: &[u8]| judge_plan(&case.tables, left).is_err();
    record.left.is_some_and(refused)
}

/// 17 and 75 among records that are whole.
fn note_refused_records(met: &mut Met, case: &CheckCase, refusal: Refusal, records: &[Record]) {
    let step = refusal.printed();
    let no_plan = |record: &Record| carries_no_plan(case, record);
    if refusal.number == 17 {
        let behind = &records[step..];
        met.note("17 before 75", behind.iter().any(no_plan));
        met.note("17 behind 75", records[..step].iter().any(no_plan));
        met.note("17 for 128", records[step].first == 128);
        met.note("17 for 161", records[step].first == 161);
        let others = behind.iter().filter(|record| record.law().is_none());
        met.note("17 twice", others.count() > 1);
        let backwards = |record: &Record| record.left.is_some();
        met.note(
            "17 behind a left side",
            records[..step].iter().any(backwards),
        );
    }
    if refusal.number == 75 {
        let left = records[step].left.unwrap();
        let why = judge_plan(&case.tables, left).unwrap_err().number;
        met.note("75 for no words", left.is_empty());
        met.note("75 for too many words", why == 11 && !left.is_empty());
        met.note("75 for one word too many", left.len() == LONGEST_PLAN + 1);
        met.note("75 for 65,535 words", left.len() == 65_535);
        met.note("75 for 12", why == 12);
        met.note("75 for 13", why == 13);
        met.note("75 for 14", why == 14);
        met.note("75 at the first step", step == 0);
        met.note("75 at a later step", step > 0);
        met.note(
            "75 behind a left side",
            step > 0 && records[step - 1].left.is_some(),
        );
        let mut behind = records[step + 1..].iter();
        met.note("75 twice", behind.any(no_plan));
    }
}

/// The subplan at a place of the plan that these steps reach.
fn made_plan(case: &CheckCase, made: &[Record], place: usize) -> Vec<u8> {
    let next = |plan: Vec<u8>, record| step(&case.tables, &plan, record).unwrap();
    let plan = made.iter().fold(case.start.clone(), next);
    subplan(&plan, place).to_vec()
}

/// A step backwards that was not made.
fn note_backwards(
    met: &mut Met,
    case: &CheckCase,
    number: u8,
    made: &[Record],
    record: &Record,
    size: usize,
) {
    let Some(left) = record.left else {
        let forgetting = made.iter().filter(|record| record.left.is_some());
        met.note("31 or 32 behind a step backwards", forgetting.count() > 0);
        return;
    };
    let room = case.a.len().min(case.b.len()).min(LONGEST_PLAN);
    if number == 32 {
        met.note("32 by a step backwards", made.is_empty());
        met.note("32 by a later step backwards", !made.is_empty());
        met.note("32, left side longer than C", left.len() > room);
        met.note("32, left side within C", left.len() <= room);
        return;
    }
    let law = record.law().unwrap();
    let right = apply(&case.tables, left, law, left.len() - 1);
    met.note("31 backwards, past the end", record.place >= size);
    met.note("31 backwards, no left side of the law", right.is_none());
    met.note(
        "31 backwards, another subplan",
        right.is_some() && record.place < size,
    );
    met.note("31 backwards, left side longer than C", left.len() > room);
    let longest = left.len() == LONGEST_PLAN;
    met.note("31 backwards, a left side as long as can be", longest);
    // Of the law's form, but the tables say otherwise.
    let by_the_tables =
        right.is_none() && matches!((law, left), (20 | 21, [_, _]) | (24 | 25, [_, _, 69]));
    met.note("31 backwards, by the tables", by_the_tables);
    if left.len() < 99 && record.place < size {
        let wanted = made_plan(case, made, record.place);
        let mut inside = (0..left.len() - 1).map(|at| apply(&case.tables, left, law, at));
        let here = inside.any(|given| given == Some(wanted.clone()));
        met.note("31 backwards, the law fits inside the left side", here);
    }
    met.note("31 backwards, no step", made.is_empty());
    met.note(
        "31 backwards, in A",
        !made.is_empty() && made.len().is_multiple_of(2),
    );
    met.note("31 backwards, in B", made.len() % 2 == 1);
}

#[test]
fn edges_of_writing() {
    let (mut random, mut met) = (Random::new(48), Met::default());
    for _ in 0..8000 {
        let case = write_case(&mut random);
        let (words, area) = (case.plan.len(), case.area.len());
        let file = 512 * (5 + words.div_ceil(504));
        match case.run().answer {
            Ok(_) => {
                met.note("written, no byte over", area == file);
                met.note("written, one byte over", area == file + 1);
                met.note("written, a block over", area == file + 512);
                met.note("written, 38 blocks over", area > file + 38 * 512);
                for (kind, size) in SIZES_WRITTEN {
                    met.note(kind, words == size);
                }
            }
            Err(refusal) => note_not_written(&mut met, &case, refusal.number, file),
        }
    }
    met.assert_all();
}

fn note_not_written(met: &mut Met, case: &WriteCase, number: u8, file: usize) {
    let (words, area) = (case.plan.len(), case.area.len());
    let (tables, plan) = (number <= 8, (11..=14).contains(&number));
    met.note("74 without an area", number == 74 && area == 0);
    met.note("74 by one byte", number == 74 && area + 1 == file);
    met.note("74 by a block", number == 74 && area + 512 == file);
    met.note("74 by the plan's blocks", number == 74 && area == 5 * 512);
    met.note("74, longest plan", number == 74 && words == LONGEST_PLAN);
    met.note("tables refused, no area", tables && area == 0);
    met.note("tables refused, one byte short", tables && area + 1 == file);
    met.note("tables refused, room", tables && area >= file);
    met.note("plan refused, no area", plan && area == 0);
    met.note("plan refused, one byte short", plan && area + 1 == file);
    met.note("plan refused, room", plan && area >= file);
    met.note("11 empty", number == 11 && words == 0);
    let over = words == LONGEST_PLAN + 1;
    met.note("11 one word more", number == 11 && over);
    // A plan is judged by n, so it is asked only where n is right.
    let both = (3..=8).contains(&number) && judge_plan(&case.tables, &case.plan).is_err();
    met.note("tables and plan refused", both);
}

/// Sizes of plans that are written, at the edges of blocks.
const SIZES_WRITTEN: [(&str, usize); 12] = [
    ("written, 1 word", 1),
    ("written, 503 words", 503),
    ("written, 504 words", 504),
    ("written, 505 words", 505),
    ("written, 1,007 words", 1007),
    ("written, 1,008 words", 1008),
    ("written, 1,009 words", 1009),
    ("written, 16,127 words", 16_127),
    ("written, 16,128 words", 16_128),
    ("written, 16,129 words", 16_129),
    ("written, 16,383 words", 16_383),
    ("written, 16,384 words", 16_384),
];
