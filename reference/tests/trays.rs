//! The twelve trial trays.

use reference::plans::{counts, is_basic, Counts};
use reference::random::cases::{own_rewriting_case, UnfoldCase, Unfolded};
use reference::stations::{program, station_file};
use reference::tables::trial_tables;
use reference::trees::alike;
use reference::unfolding::{record, Answer};

/// A byte that no area holds afterwards unless it kept it.
const OLD: u8 = 0xEE;

/// The plans of case 1, from the given one to the one reached.
const CASE_1: [&[u8]; 5] = [
    &[1, 2, 66],
    &[1, 2, 67, 2, 1, 67, 64, 1, 2, 68, 64],
    &[1, 2, 65, 2, 1, 67, 64, 1, 2, 68, 64],
    &[1, 2, 65, 2, 1, 65, 64, 1, 2, 68, 64],
    &[1, 2, 65, 2, 1, 65, 64, 3, 64],
];
const STEPS_1: [(u8, usize); 4] = [(11, 2), (12, 2), (12, 5), (10, 9)];

fn case(plan: &[u8], allowance: u32, list: usize, area: usize) -> UnfoldCase {
    UnfoldCase {
        tables: trial_tables(),
        plan: plan.to_vec(),
        allowance,
        list: vec![OLD; list],
        a: vec![OLD; area],
        b: vec![OLD; area],
    }
}

fn padded(content: &[u8], length: usize) -> Vec<u8> {
    let mut area = content.to_vec();
    area.resize(length, 0);
    area
}

fn records(steps: &[(u8, usize)]) -> Vec<u8> {
    steps
        .iter()
        .flat_map(|&(law, place)| record(law, place))
        .collect()
}

/// Unfolds with ample room, and compares answer, list and the plan reached; the own
/// rewriting must be accepted.
fn finishes(plan: &[u8], steps: &[(u8, usize)], end: &[u8]) {
    let case = case(plan, 100, 300, 60);
    let unfolded = case.run();
    let (number, size) = (0, end.len());
    let answer = Answer::Ended {
        number,
        steps: steps.len(),
        size,
    };
    assert_eq!(unfolded.answer, answer, "{plan:?}");
    assert_eq!(unfolded.list, padded(&records(steps), 300), "{plan:?}");
    let reached = if steps.len().is_multiple_of(2) {
        &unfolded.a
    } else {
        &unfolded.b
    };
    assert_eq!(*reached, padded(end, 60), "{plan:?}");
    assert!(is_basic(end));
    assert!(alike(&trial_tables(), plan, end));
    accepts_own_rewriting(&case);
}

fn accepts_own_rewriting(case: &UnfoldCase) {
    let unfolded = case.run();
    let checked = own_rewriting_case(case).unwrap().run();
    assert_eq!(checked.answer.number(), 0);
    assert_eq!((checked.a, checked.b), (unfolded.a, unfolded.b));
}

#[test]
fn case_1_merge() {
    finishes(CASE_1[0], &STEPS_1, CASE_1[4]);
    let counted = Counts {
        orders: 3,
        stuck: 0,
    };
    assert_eq!(counts(CASE_1[4]), counted);
}

#[test]
fn case_1_printed() {
    let printed = "end 0 steps 4 size 9 orders 3 stuck 0\n\
                   1 2 65 2 1 65 64 3 64\n\
                   11 2\n12 2\n12 5\n10 9\n";
    assert_eq!(program(&station_file(&trial_tables(), CASE_1[0])), printed);
}

#[test]
fn case_2_encapsulated_merge() {
    let mut steps = STEPS_1.to_vec();
    steps.extend([(22, 9), (22, 7), (23, 3), (21, 1), (21, 2), (9, 2)]);
    steps.extend([(23, 4), (21, 2), (21, 3), (9, 3), (7, 2), (20, 2), (8, 2)]);
    assert_eq!(steps.len(), 17);
    finishes(&[1, 2, 66, 80], &steps, &[3]);
}

#[test]
fn case_3_priority() {
    let steps = [(32, 3), (30, 1), (25, 2), (30, 2), (24, 3), (8, 2)];
    finishes(&[1, 4, 64, 70], &steps, &[4]);
}

#[test]
fn case_4_no_priority() {
    let steps = [(32, 3), (30, 1), (24, 2), (30, 2), (24, 3)];
    finishes(&[1, 2, 64, 70], &steps, &[1, 2, 64]);
}

#[test]
fn case_5_unless() {
    finishes(&[1, 2, 4, 65, 69], &[(26, 4), (24, 2)], &[1]);
}

#[test]
fn case_6_basic_already() {
    finishes(&[0], &[], &[0]);
    finishes(&[1, 0, 65], &[], &[1, 0, 65]);
    let unfolded = case(&[1, 0, 65], 0, 0, 3).run();
    let answer = Answer::Ended {
        number: 0,
        steps: 0,
        size: 3,
    };
    assert_eq!(unfolded.answer, answer);
    assert_eq!((unfolded.a, unfolded.b), (vec![1, 0, 65], vec![0; 3]));
}

#[test]
fn case_7_dead_stop_first() {
    finishes(&[0, 1, 65], &[(9, 2)], &[0]);
}

#[test]
fn case_8_dead_stops() {
    finishes(&[0, 0, 64], &[(7, 2)], &[0]);
}

/// Case 1 with limits: the number it ends in after so many steps.
fn ends(allowance: u32, list: usize, area: usize, number: u8, steps: usize) {
    let case = case(CASE_1[0], allowance, list, area);
    let Unfolded {
        answer,
        list: got,
        a,
        b,
    } = case.run();
    let reached = CASE_1[steps];
    let before: &[u8] = if steps == 0 { &[] } else { CASE_1[steps - 1] };
    let size = reached.len();
    assert_eq!(
        answer,
        Answer::Ended {
            number,
            steps,
            size
        }
    );
    assert_eq!(got, padded(&records(&STEPS_1[..steps]), list));
    let (in_a, in_b) = if steps.is_multiple_of(2) {
        (reached, before)
    } else {
        (before, reached)
    };
    assert_eq!(a, padded(in_a, area));
    assert_eq!(b, padded(in_b, area));
    accepts_own_rewriting(&case);
}

#[test]
fn case_9_allowance() {
    ends(3, 100, 20, 34, 3);
    ends(4, 100, 20, 0, 4);
    ends(0, 0, 3, 34, 0);
}

#[test]
fn case_10_areas() {
    ends(100, 100, 10, 36, 0);
    ends(100, 100, 11, 0, 4);
}

#[test]
fn case_11_list() {
    ends(100, 11, 20, 35, 3);
    ends(100, 12, 20, 0, 4);
    ends(100, 0, 20, 35, 0);
    ends(100, 2, 20, 35, 0);
}

#[test]
fn case_12_alike() {
    let tables = trial_tables();
    assert!(!alike(
        &tables,
        &[1, 2, 3, 64, 65],
        &[1, 2, 65, 1, 3, 65, 64]
    ));
    assert!(alike(&tables, &[1, 2, 64], &[2, 1, 64, 1, 64]));
}
