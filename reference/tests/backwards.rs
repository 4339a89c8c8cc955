//! Steps from right to left: what request 108 asks of the checker.

use reference::checking::{check_rewriting, step, Answer};
use reference::laws::apply;
use reference::plans::{judge, judge_plan, LONGEST_PLAN};
use reference::random::cases::{
    any_derivation, check_case, own_rewriting_case, turned_case, unfold_case, CheckCase, Checked,
};
use reference::random::plans::{every_plan, plan_with_left_side, small_plan};
use reference::random::rewritings::{derivation, derivation_both_ways};
use reference::random::tables::lawful_tables;
use reference::random::Random;
use reference::records::{cut, record_backwards, Record};
use reference::runs::{room, Run};
use reference::tables::trial_tables;
use reference::trees::alike;
use reference::turning::turned_round;
use reference::unfolding::record;
use reference::Refusal;
use std::collections::{BTreeMap, BTreeSet};

/// A byte that no area holds afterwards unless it kept it.
const OLD: u8 = 0xEE;

/// The answer under the trial tables, and both areas, which have this length.
fn check(start: &[u8], claimed: &[u8], rewriting: &[u8], area: usize) -> (Answer, [Vec<u8>; 2]) {
    let (mut a, mut b) = (vec![OLD; area], vec![OLD; area]);
    let tables = trial_tables();
    let answer = check_rewriting(&tables, start, claimed, rewriting, &mut a, &mut b);
    if let Answer::Refused(_) = answer {
        assert_eq!((&a, &b), (&vec![OLD; area], &vec![OLD; area]));
    }
    (answer, [a, b])
}

/// The answer for a start plan which is claimed as well, with ample room.
fn answer(start: &[u8], rewriting: &[u8]) -> Answer {
    check(start, start, rewriting, 1000).0
}

fn refused(number: u8) -> Answer {
    Answer::Refused(Refusal::nowhere(number))
}

fn refused_at(number: u8, step: usize) -> Answer {
    Answer::Refused(Refusal::at_step(number, step))
}

fn padded(content: &[u8], length: usize) -> Vec<u8> {
    let mut area = content.to_vec();
    area.resize(length, 0);
    area
}

/// For every law a left side, and what the law gives under the trial tables.
const BOTH_SIDES: [(&[u8], &[u8]); 32] = [
    (&[1, 2, 64], &[2, 1, 64]),
    (&[1, 2, 3, 64, 64], &[1, 2, 64, 3, 64]),
    (&[1, 2, 64, 3, 64], &[1, 2, 3, 64, 64]),
    (&[1, 1, 64], &[1]),
    (&[1, 2, 64, 3, 65], &[1, 3, 65, 2, 3, 65, 64]),
    (&[1, 2, 65, 3, 65], &[1, 2, 3, 65, 65]),
    (&[1, 0, 64], &[1]),
    (&[0, 1, 64], &[1]),
    (&[0, 1, 65], &[0]),
    (&[1, 2, 68], &[3]),
    (&[1, 2, 66], &[1, 2, 67, 2, 1, 67, 64, 1, 2, 68, 64]),
    (&[1, 2, 67], &[1, 2, 65]),
    (&[1, 2, 65, 3, 67], &[1, 2, 3, 66, 65]),
    (&[1, 2, 64, 3, 67], &[1, 3, 67, 2, 3, 67, 64]),
    (&[1, 2, 65, 3, 68], &[1, 3, 68, 2, 65]),
    (&[1, 2, 3, 65, 68], &[1, 2, 68, 3, 65]),
    (&[1, 2, 65, 3, 4, 65, 68], &[1, 3, 68, 2, 4, 66, 65]),
    (&[1, 2, 64, 3, 68], &[1, 3, 68, 2, 3, 68, 64]),
    (&[1, 2, 3, 64, 68], &[1, 2, 68, 1, 3, 68, 64]),
    (&[3, 80], &[3]),
    (&[1, 80], &[0]),
    (&[1, 2, 64, 80], &[1, 80, 2, 80, 64]),
    (&[1, 2, 65, 80], &[1, 80, 2, 80, 65]),
    (&[1, 2, 69], &[1]),
    (&[1, 4, 69], &[0]),
    (&[1, 2, 3, 65, 69], &[1, 2, 69]),
    (&[1, 2, 3, 64, 69], &[1, 2, 69, 3, 69]),
    (&[1, 2, 65, 3, 69], &[1, 3, 69, 2, 65]),
    (&[1, 2, 64, 3, 69], &[1, 3, 69, 2, 3, 69, 64]),
    (&[1, 70], &[1]),
    (&[1, 2, 65, 70], &[1, 70, 2, 70, 65]),
    (&[1, 2, 64, 70], &[1, 70, 2, 69, 2, 70, 1, 69, 64]),
];

/// Every law with its sides.
fn laws() -> impl Iterator<Item = (u8, &'static [u8], &'static [u8])> {
    let numbered = (1..).zip(BOTH_SIDES);
    numbered.map(|(law, (left, right))| (law, left, right))
}

#[test]
fn every_law_goes_backwards() {
    for (law, left, right) in laws() {
        let step = record_backwards(law, right.len() - 1, left);
        assert_eq!(step[..3], record(128 + law, right.len() - 1));
        assert_eq!(step[3..], [&[left.len() as u8, 0], left].concat());
        let (answer, [a, b]) = check(right, left, &step, 12);
        let (steps, size) = (1, left.len());
        assert_eq!(answer, Answer::Accepted { steps, size }, "{law}");
        assert_eq!((a, b), (padded(right, 12), padded(left, 12)), "{law}");
    }
}

#[test]
fn every_law_goes_backwards_inside_a_plan() {
    for (law, left, right) in laws() {
        let around = |plan: &[u8]| [&[4, 3], plan, &[64, 65, 2, 66]].concat();
        let (start, claimed) = (around(right), around(left));
        let place = right.len() + 1;
        let (answer, _) = check(&start, &claimed, &record_backwards(law, place, left), 40);
        let (steps, size) = (1, claimed.len());
        assert_eq!(answer, Answer::Accepted { steps, size }, "{law}");
        // Everywhere else it does not fit, but where the same subplan stands again.
        for other in (0..start.len() + 2).filter(|&other| other != place) {
            let step = record_backwards(law, other, left);
            let (number, steps, size) = (31, 0, start.len());
            let expected = match start.get(other) {
                Some(word) if right == [*word] => continue,
                _ => Answer::ended(number, steps, size),
            };
            assert_eq!(check(&start, &claimed, &step, 40).0, expected, "{law}");
        }
    }
}

#[test]
fn no_other_law_fits_backwards() {
    for (law, left, right) in laws() {
        for other in (1..=32).filter(|&other| other != law) {
            let step = record_backwards(other, right.len() - 1, left);
            let (number, steps, size) = (31, 0, right.len());
            let (answer, [a, b]) = check(right, left, &step, 12);
            assert_eq!(
                answer,
                Answer::ended(number, steps, size),
                "{law} by {other}"
            );
            assert_eq!((a, b), (padded(right, 12), vec![0; 12]));
        }
    }
}

/// Case 1 of the trial trays from its end to its beginning.
fn case_1_back() -> Vec<u8> {
    [
        record_backwards(10, 7, &[1, 2, 68]),
        record_backwards(12, 5, &[2, 1, 67]),
        record_backwards(12, 2, &[1, 2, 67]),
        record_backwards(11, 10, &[1, 2, 66]),
    ]
    .concat()
}

#[test]
fn case_1_from_its_end() {
    let (given, reached) = ([1, 2, 66], [1, 2, 65, 2, 1, 65, 64, 3, 64]);
    let before = [1, 2, 67, 2, 1, 67, 64, 1, 2, 68, 64];
    let (answer, [a, b]) = check(&reached, &given, &case_1_back(), 11);
    let (steps, size) = (4, 3);
    assert_eq!(answer, Answer::Accepted { steps, size });
    assert_eq!((a, b), (padded(&given, 11), before.to_vec()));
    // 32 by a step backwards: the next plan has eleven words.
    let (answer, [a, b]) = check(&reached, &given, &case_1_back(), 10);
    assert_eq!(answer, Answer::ended(32, 0, 9));
    assert_eq!((a, b), (padded(&reached, 10), vec![0; 10]));
    // Forwards again.
    let mut both = case_1_back();
    for (law, place) in [(11, 2), (12, 2), (12, 5), (10, 9)] {
        both.extend(record(law, place));
    }
    let (steps, size) = (8, 9);
    assert_eq!(
        check(&reached, &reached, &both, 11).0,
        Answer::Accepted { steps, size }
    );
}

#[test]
fn cut_short() {
    let start = [1];
    let whole = record_backwards(32, 0, &[1, 2]);
    assert_eq!(whole, [160, 0, 0, 2, 0, 1, 2]);
    // In its place, in its length and in its words; whatever it is, it is not 75.
    for length in 1..whole.len() {
        assert_eq!(answer(&start, &whole[..length]), refused(16), "{length}");
    }
    assert_eq!(answer(&start, &whole), refused_at(75, 0));
    assert_eq!(answer(&start, &[129, 0, 0]), refused(16));
    assert_eq!(answer(&start, &[129, 0, 0, 1, 1, 1]), refused(16));
    // An unknown first byte counts as a record of three, and may be cut short as well.
    for first in [0, 33, 64, 127, 128, 161, 255] {
        assert_eq!(answer(&start, &[first]), refused(16), "{first}");
        assert_eq!(answer(&start, &[first, 0]), refused(16), "{first}");
        assert_eq!(answer(&start, &[first, 0, 0]), refused_at(17, 0), "{first}");
        assert_eq!(answer(&start, &[first, 0, 0, 0]), refused(16), "{first}");
    }
    // What a record of three would leave over.
    assert_eq!(answer(&start, &[129, 0, 0, 0, 0]), refused_at(75, 0));
    let three = record_backwards(7, 0, &[1, 0, 64]);
    assert_eq!(three.len() % 3, 2);
    assert_eq!(answer(&start, &three), Answer::ended(33, 1, 3));
}

#[test]
fn first_bytes() {
    for first in 0..=255 {
        let found = answer(&[1], &[first, 0, 0]);
        let expected = match first {
            // At an action no law fits forwards.
            1..=32 => Answer::ended(31, 0, 1),
            129..=160 => refused(16),
            _ => refused_at(17, 0),
        };
        assert_eq!(found, expected, "{first}");
        // With a left side behind, which no first byte but 129 to 160 carries. What is behind the
        // record of three begins with a 3, as a law, and has two records.
        let found = answer(&[1], &[first, 0, 0, 3, 0, 1, 0, 64, 0]);
        let expected = match first {
            1..=32 => refused_at(17, 2),
            // One byte is left over.
            129..=160 => refused(16),
            _ => refused_at(17, 0),
        };
        assert_eq!(found, expected, "{first}");
    }
}

#[test]
fn left_sides_that_are_no_plans() {
    let start = [1, 2, 64];
    let forward = record(1, 2);
    let no_plans: [&[u8]; 7] = [&[], &[255], &[5], &[88], &[64], &[1, 64], &[1, 1]];
    for left in no_plans {
        let step = record_backwards(1, 2, left);
        assert_eq!(answer(&start, &step), refused_at(75, 0), "{left:?}");
        // The first such step, counted in records.
        let later = [&forward[..], &record_backwards(1, 2, &start), &step, &step].concat();
        assert_eq!(answer(&start, &later), refused_at(75, 2), "{left:?}");
        // Before any step, also one that does not fit.
        let misfit = [&record(4, 2)[..], &step].concat();
        assert_eq!(answer(&start, &misfit), refused_at(75, 1), "{left:?}");
    }
}

/// δ+δ+…, of so many words, which are an odd number; or θ of it.
fn long_plan(words: usize) -> Vec<u8> {
    let mut plan = vec![0];
    (0..(words - 1) / 2).for_each(|_| plan.extend([0, 64]));
    plan.resize(words, 70);
    plan
}

#[test]
fn long_left_sides() {
    let start = [1];
    for words in [LONGEST_PLAN + 1, LONGEST_PLAN + 2, 65_534, 65_535] {
        let step = record_backwards(7, 0, &long_plan(words));
        assert_eq!(step.len(), 5 + words);
        assert_eq!(answer(&start, &step), refused_at(75, 0), "{words}");
    }
    // A left side longer than C is no refusal. Where the law does not fit, 31 comes before 32.
    for words in [3, 255, 256, 257, LONGEST_PLAN - 1, LONGEST_PLAN] {
        let left = long_plan(words);
        let step = record_backwards(12, 0, &left);
        let (answer, _) = check(&start, &start, &step, 1);
        assert_eq!(answer, Answer::ended(31, 0, 1), "{words}");
        // δx → δ, of as many words.
        let left = [&[0], &long_plan(words - 2)[..], &[65]].concat();
        let step = record_backwards(9, 0, &left);
        let (answer, [a, b]) = check(&[0], &[0], &step, words - 1);
        assert_eq!(answer, Answer::ended(32, 0, 1), "{words}");
        assert_eq!((a, b), (vec![0; words - 1], vec![0; words - 1]));
        let (answer, [a, b]) = check(&[0], &left, &step, words);
        let (steps, size) = (1, words);
        assert_eq!(answer, Answer::Accepted { steps, size }, "{words}");
        assert_eq!((a, b), (vec![0; words], left));
    }
}

#[test]
fn refusals_in_their_order() {
    let start = [1, 2, 64];
    let no_plan = record_backwards(1, 2, &[64]);
    let unknown = [0, 0, 0];
    let join = |records: &[&[u8]]| records.concat();
    // 16 of the last record, before 17 and 75 of any.
    let all = join(&[&no_plan, &unknown, &[1, 2]]);
    assert_eq!(answer(&start, &all), refused(16));
    let all = join(&[&unknown, &no_plan, &[129, 2, 0, 3]]);
    assert_eq!(answer(&start, &all), refused(16));
    // 17 of any record, before 75 of any.
    let both = join(&[&no_plan, &record(1, 2), &unknown, &no_plan]);
    assert_eq!(answer(&start, &both), refused_at(17, 2));
    let both = join(&[&unknown, &no_plan]);
    assert_eq!(answer(&start, &both), refused_at(17, 0));
    // 15 before these, 18 before 15, and the start plan before 18.
    let (answer, _) = check(&start, &start, &all, 2);
    assert_eq!(answer, refused(15));
    let (answer, _) = check(&start, &[64], &all, 2);
    assert_eq!(answer, refused(18));
    let (answer, _) = check(&[255], &[64], &all, 2);
    assert_eq!(answer, Answer::Refused(Refusal::at_byte(12, 0)));
    let (mut a, mut b) = (vec![OLD; 9], vec![OLD; 9]);
    let answer = check_rewriting(&[], &[255], &[64], &all, &mut a, &mut b);
    assert_eq!(answer, refused(1));
}

#[test]
fn steps_count_records() {
    let start = [1, 2, 64];
    // Ten bytes, then three.
    let back = record_backwards(7, 2, &[1, 2, 64, 0, 64]);
    assert_eq!(back.len(), 10);
    let unknown = [&back[..], &[33, 0, 0]].concat();
    assert_eq!(answer(&start, &unknown), refused_at(17, 1));
    let no_plan = [&back[..], &record_backwards(7, 0, &[1, 1])].concat();
    assert_eq!(answer(&start, &no_plan), refused_at(75, 1));
    // One step made: the plan reached is in B.
    let misfit = [&back[..], &record(30, 0)].concat();
    let (answer, [a, b]) = check(&start, &start, &misfit, 6);
    assert_eq!(answer, Answer::ended(31, 1, 5));
    assert_eq!(a, [1, 2, 64, 0, 0, 0]);
    assert_eq!(b, [1, 2, 64, 0, 64, 0]);
}

#[test]
fn a_single_step_backwards() {
    let step = record_backwards(8, 0, &[0, 1, 64]);
    let (answer, [a, b]) = check(&[1], &[1], &step, 4);
    assert_eq!(answer, Answer::ended(33, 1, 3));
    assert_eq!((a, b), (vec![1, 0, 0, 0], vec![0, 1, 64, 0]));
    let (answer, [a, b]) = check(&[1], &[1], &step, 2);
    assert_eq!(answer, Answer::ended(32, 0, 1));
    assert_eq!((a, b), (vec![1, 0], vec![0, 0]));
    let (answer, [a, b]) = check(&[2], &[0, 1, 64], &step, 4);
    assert_eq!(answer, Answer::ended(31, 0, 1));
    assert_eq!((a, b), (vec![2, 0, 0, 0], vec![0; 4]));
}

/// Whether the one step backwards is made.
fn fits(start: &[u8], law: u8, place: usize, left: &[u8]) -> bool {
    match answer(start, &record_backwards(law, place, left)) {
        Answer::Accepted { steps: 1, .. } | Answer::Back { number: 33, .. } => true,
        Answer::Back {
            number: 31,
            steps: 0,
            ..
        } => false,
        other => panic!("{other:?}"),
    }
}

/// A law, what it gives, and two left sides from which it gives that.
type Forgetting = (u8, &'static [u8], [&'static [u8]; 2]);

/// Laws that forget a part of their left side.
const FORGETTING: [Forgetting; 4] = [
    (9, &[0], [&[0, 1, 65], &[0, 2, 3, 66, 65]]),
    (21, &[0], [&[1, 80], &[2, 80]]),
    (25, &[0], [&[1, 4, 69], &[0, 2, 69]]),
    (
        26,
        &[1, 2, 69],
        [&[1, 2, 3, 65, 69], &[1, 2, 1, 70, 65, 69]],
    ),
];

#[test]
fn laws_that_forget() {
    // One subplan has many left sides, and the carried one decides.
    for (law, right, [one, other]) in FORGETTING {
        for (left, other) in [(one, other), (other, one)] {
            let step = record_backwards(law, right.len() - 1, left);
            let (steps, size) = (1, left.len());
            let accepted = Answer::Accepted { steps, size };
            assert_eq!(check(right, left, &step, 12).0, accepted, "{law}");
            let differs = Answer::ended(33, steps, size);
            assert_eq!(check(right, other, &step, 12).0, differs, "{law}");
        }
    }
}

#[test]
fn the_tables_count() {
    // 1|2 = 3, and 1|3 = 0.
    assert!(fits(&[3], 10, 0, &[2, 1, 68]));
    assert!(!fits(&[3], 10, 0, &[1, 3, 68]));
    assert!(fits(&[0], 10, 0, &[1, 3, 68]));
    // Set 0 has 1 and 2, set 1 none.
    assert!(!fits(&[1], 20, 0, &[1, 80]));
    assert!(fits(&[1], 20, 0, &[1, 81]));
    assert!(fits(&[0], 21, 0, &[1, 80]));
    assert!(!fits(&[0], 21, 0, &[1, 81]));
    assert!(!fits(&[0], 21, 0, &[3, 80]));
    // 1 < 4, not 4 < 1; 0 is below all but itself.
    assert!(!fits(&[1], 24, 0, &[1, 4, 69]));
    assert!(fits(&[4], 24, 0, &[4, 1, 69]));
    assert!(fits(&[0], 24, 0, &[0, 0, 69]));
    assert!(!fits(&[0], 25, 0, &[4, 1, 69]));
    assert!(fits(&[0], 25, 0, &[0, 1, 69]));
}

#[test]
fn exactly_the_subplan() {
    // The words of the right side, and not those of a longer or a shorter subplan.
    assert!(fits(&[1, 1, 2, 65, 65], 12, 3, &[1, 2, 67]));
    assert!(!fits(&[1, 1, 2, 65, 65], 12, 4, &[1, 2, 67]));
    assert!(!fits(&[1, 2, 65], 7, 2, &[2, 0, 64]));
    assert!(fits(&[1, 2, 65], 7, 1, &[2, 0, 64]));
    // Alike is not enough.
    assert!(!fits(&[1, 2, 64], 1, 2, &[1, 2, 64]));
    assert!(fits(&[1, 2, 64], 1, 2, &[2, 1, 64]));
    assert!(!fits(&[1, 1, 64], 7, 2, &[1, 0, 64]));
    // At the last of the words, and nowhere else in them.
    assert!(fits(&[1, 2, 65, 3, 65], 12, 2, &[1, 2, 67]));
    assert!(!fits(&[1, 2, 65, 3, 65], 12, 4, &[1, 2, 67, 3, 65]));
    // A left side may be one that its own law leaves as it is.
    assert!(fits(&[1, 1, 64], 1, 2, &[1, 1, 64]));
    // Past the end.
    for place in [1, 2, 3, 255, 256, 16_384, 65_535] {
        assert!(!fits(&[1], 7, place, &[1, 0, 64]), "{place}");
    }
    // A place of two bytes, low first: an action at 259, a sum at 260, and nothing at 769.
    let long = long_plan(601);
    for (place, here) in [(259, true), (260, false), (769, false)] {
        assert_eq!(fits(&long, 7, place, &[0, 0, 64]), here, "{place}");
    }
}

#[test]
fn records_are_cut_and_put_together() {
    let left = [1, 2, 64];
    let rewriting = [
        &record(11, 258)[..],
        &record_backwards(11, 2, &left),
        &[161, 7, 0],
    ]
    .concat();
    let records = cut(&rewriting).unwrap();
    let plain = |first, place| Record {
        first,
        place,
        left: None,
    };
    let back = Record {
        first: 139,
        place: 2,
        left: Some(&left),
    };
    assert_eq!(records, [plain(11, 258), back, plain(161, 7)]);
    assert_eq!(
        records.iter().map(Record::law).collect::<Vec<_>>(),
        [Some(11), Some(11), None]
    );
    let bytes: Vec<u8> = records.iter().flat_map(Record::bytes).collect();
    assert_eq!(bytes, rewriting);
    assert_eq!(cut(&[]), Some(vec![]));
    assert_eq!(cut(&rewriting[..rewriting.len() - 1]), None);
}

/// The checker as it was before the request: "three bytes to a step"; "16 rewriting not a multiple
/// of 3; 17 law 0 or above 32 (first step)".
fn check_by_threes(case: &CheckCase) -> Checked {
    let (mut a, mut b) = (case.a.clone(), case.b.clone());
    let room = room(&a, &b);
    let answer = match judge_by_threes(case, room) {
        Err(refusal) => Answer::Refused(refusal),
        Ok(()) => {
            let (number, run) = replay_by_threes(case, room);
            run.leave_in(&mut a, &mut b);
            Answer::ended(number, run.steps, run.plan.len())
        }
    };
    Checked { answer, a, b }
}

fn judge_by_threes(case: &CheckCase, room: usize) -> Result<(), Refusal> {
    judge(&case.tables, &case.start)?;
    if judge_plan(&case.tables, &case.claimed).is_err() {
        return Err(Refusal::nowhere(18));
    }
    if case.start.len() > room {
        return Err(Refusal::nowhere(15));
    }
    if !case.rewriting.len().is_multiple_of(3) {
        return Err(Refusal::nowhere(16));
    }
    let mut laws = case.rewriting.iter().step_by(3);
    match laws.position(|law| !(1..=32).contains(law)) {
        Some(step) => Err(Refusal::at_step(17, step)),
        None => Ok(()),
    }
}

fn replay_by_threes(case: &CheckCase, room: usize) -> (u8, Run) {
    let mut run = Run::begin(&case.start);
    for step in case.rewriting.chunks(3) {
        let (law, place) = (step[0], step[1] as usize + 256 * step[2] as usize);
        let Some(next) = apply(&case.tables, &run.plan, law, place) else {
            return (31, run);
        };
        if next.len() > room {
            return (32, run);
        }
        run = run.advance(next);
    }
    let number = if run.plan == case.claimed { 0 } else { 33 };
    (number, run)
}

/// Whether no record, cut by threes, begins with the first byte of a step backwards.
fn is_forward_list(rewriting: &[u8]) -> bool {
    let mut firsts = rewriting.chunks_exact(3).map(|step| step[0]);
    firsts.all(|first| !(129..=160).contains(&first))
}

/// A case of forward steps alone: right, or with bytes changed, put in or left out anywhere.
fn forward_case(random: &mut Random) -> CheckCase {
    let mut case = check_case(random);
    if judge(&case.tables, &case.start).is_ok() {
        let most = random.below(6);
        let made = derivation(random, &case.tables, &case.start, most, LONGEST_PLAN);
        case.rewriting = made.rewriting;
        if !random.once_in(5) {
            case.claimed = made.end;
        }
    }
    while random.once_in(2) {
        let list = &mut case.rewriting;
        let at = random.below(list.len() + 1);
        let byte = random.pick(&[0, 1, 2, 5, 31, 32, 33, 64, 127, 128, 129, 160, 161, 255]);
        match random.below(6) {
            0 if at < list.len() => list[at] = byte,
            1 if at < list.len() => list[at] = list[at].wrapping_add(1),
            2 => list.insert(at, byte),
            3 => list.truncate(at),
            4 => drop(list.splice(at..at, record(byte, random.below(9)))),
            _ => list.extend(vec![byte; random.between(1, 3)]),
        }
    }
    case
}

/// "A list of forward steps is answered as before".
#[test]
fn forward_lists_are_answered_as_before() {
    let mut random = Random::new(81);
    let mut met: BTreeMap<u8, usize> = BTreeMap::new();
    let mut others = 0;
    for _ in 0..30_000 {
        let case = match random.below(8) {
            0 => check_case(&mut random),
            1 => match own_rewriting_case(&unfold_case(&mut random)) {
                Some(case) => case,
                None => continue,
            },
            _ => forward_case(&mut random),
        };
        if !is_forward_list(&case.rewriting) {
            others += usize::from(case.run() != check_by_threes(&case));
            continue;
        }
        let checked = case.run();
        assert_eq!(checked, check_by_threes(&case), "{case:?}");
        *met.entry(checked.answer.number()).or_default() += 1;
    }
    let numbers: BTreeSet<u8> = met.keys().copied().collect();
    let all = (0..=8).chain(11..=18).chain(31..=33);
    assert_eq!(numbers, all.collect(), "{met:?}");
    for number in [0, 15, 16, 17, 18, 31, 32, 33] {
        assert!(met[&number] > 100, "{met:?}");
    }
    // Of the other lists many are answered otherwise than before.
    assert!(others > 500, "{others}");
}

#[test]
fn every_short_list_of_forward_bytes() {
    // All lists of up to four bytes out of these, and all of six that have two records.
    let bytes = [0, 1, 2, 8, 32, 33, 128, 129, 160, 161];
    let mut lists = vec![vec![]];
    for length in 0..4 {
        let longer = |list: &Vec<u8>, byte: u8| [&list[..], &[byte]].concat();
        let begun: Vec<Vec<u8>> = lists
            .iter()
            .filter(|l| l.len() == length)
            .cloned()
            .collect();
        lists.extend(
            begun
                .iter()
                .flat_map(|list| bytes.map(|byte| longer(list, byte))),
        );
    }
    let whole: Vec<Vec<u8>> = lists.iter().filter(|l| l.len() == 3).cloned().collect();
    let short = |list: &&Vec<u8>| list[2] == 0;
    for one in whole.iter().filter(short) {
        lists.extend(
            whole
                .iter()
                .filter(short)
                .map(|other| [&one[..], other].concat()),
        );
    }
    let mut compared = 0;
    for rewriting in lists.into_iter().filter(|list| is_forward_list(list)) {
        let case = CheckCase {
            tables: trial_tables(),
            start: vec![0, 1, 64],
            claimed: vec![1, 0, 64],
            rewriting,
            a: vec![OLD; 4],
            b: vec![OLD; 3],
        };
        assert_eq!(case.run(), check_by_threes(&case), "{case:?}");
        compared += 1;
    }
    assert!(compared > 10_000, "{compared}");
}

/// The laws of a rewriting's steps, forwards and backwards.
fn note_laws(rewriting: &[u8], laws: &mut [BTreeSet<u8>; 2]) {
    for record in cut(rewriting).unwrap() {
        let way = usize::from(record.left.is_some());
        laws[way].insert(record.law().unwrap());
    }
}

#[test]
fn accepted_rewritings_turned_round_are_accepted() {
    let mut random = Random::new(82);
    let (mut accepted, mut longest) = (0, 0);
    let mut laws = [BTreeSet::new(), BTreeSet::new()];
    for _ in 0..16_000 {
        let case = match random.below(4) {
            0 => match own_rewriting_case(&unfold_case(&mut random)) {
                Some(case) => case,
                None => continue,
            },
            _ => check_case(&mut random),
        };
        let Answer::Accepted { steps, .. } = case.run().answer else {
            assert!(turned_case(&case).is_none());
            continue;
        };
        let turned = turned_case(&case).unwrap();
        assert_eq!(
            (&turned.start, &turned.claimed),
            (&case.claimed, &case.start)
        );
        let size = case.start.len();
        assert_eq!(turned.run().answer, Answer::Accepted { steps, size });
        note_laws(&turned.rewriting, &mut laws);
        longest = longest.max(steps);
        accepted += usize::from(steps > 0);
        // Turned round again, it goes where it went.
        let again = turned_case(&turned).unwrap();
        let checked = again.run();
        assert_eq!(checked, case.run());
        // Steps backwards come back as they were, and forward ones too.
        assert_eq!(again.rewriting, case.rewriting);
    }
    assert!(accepted > 3000 && longest > 100, "{accepted} {longest}");
    assert_eq!(laws, [(1..=32).collect(), (1..=32).collect()]);
}

#[test]
fn what_is_not_replayed_is_not_turned_round() {
    let tables = trial_tables();
    let turn = |rewriting: &[u8]| turned_round(&tables, &[1, 2, 64], rewriting);
    assert_eq!(turn(&[]), Some(vec![]));
    assert_eq!(turn(&[1]), None);
    assert_eq!(turn(&[33, 2, 0]), None);
    assert_eq!(turn(&record(4, 2)), None);
    assert_eq!(
        turn(&record(1, 2)),
        Some(record_backwards(1, 2, &[1, 2, 64]))
    );
    let back = record_backwards(8, 1, &[0, 2, 64]);
    assert_eq!(turn(&back), Some(record(8, 3).to_vec()));
    // The place moves by as much as the plan grows or shrinks.
    let reached = [1, 2, 65, 2, 1, 65, 64, 3, 64];
    let forwards: Vec<u8> = [(11, 2), (12, 2), (12, 5), (10, 9)]
        .into_iter()
        .flat_map(|(law, place)| record(law, place))
        .collect();
    assert_eq!(
        turned_round(&tables, &[1, 2, 66], &forwards),
        Some(case_1_back())
    );
    assert_eq!(
        turned_round(&tables, &reached, &case_1_back()),
        Some(forwards)
    );
}

/// "accepted still means that the trees are alike".
#[test]
fn accepted_means_alike_both_ways() {
    let mut random = Random::new(83);
    let mut laws = [BTreeSet::new(), BTreeSet::new()];
    let (mut both, mut differing) = (0, 0);
    for _ in 0..4000 {
        let tables = lawful_tables(&mut random);
        let start = match random.below(2) {
            0 => small_plan(&mut random, tables[0], 9),
            _ => plan_with_left_side(&mut random, tables[0]),
        };
        if start.len() > 20 {
            continue;
        }
        let mut made = derivation_both_ways(&mut random, &tables, &start, 8, 40);
        if random.once_in(3) {
            made = made.turned_round(&tables);
        }
        note_laws(&made.rewriting, &mut laws);
        let mut case = CheckCase {
            tables,
            start: made.start,
            claimed: made.end,
            rewriting: made.rewriting,
            a: vec![OLD; made.longest],
            b: vec![OLD; made.longest],
        };
        assert_eq!(case.run().answer.number(), 0);
        assert!(alike(&case.tables, &case.start, &case.claimed), "{case:?}");
        let backwards = cut(&case.rewriting).unwrap();
        let backwards: Vec<bool> = backwards
            .iter()
            .map(|record| record.left.is_some())
            .collect();
        both += usize::from(backwards.contains(&true) && backwards.contains(&false));
        let claimed = case.claimed;
        case.claimed = small_plan(&mut random, case.tables[0], 5);
        let number = if case.claimed == claimed { 0 } else { 33 };
        assert_eq!(case.run().answer.number(), number);
        differing += usize::from(number == 33);
    }
    assert_eq!(laws, [(1..=32).collect(), (1..=32).collect()]);
    assert!(both > 1000 && differing > 1000, "{both} {differing}");
}

/// Damaged lists of both ways too: whatever is accepted has alike trees.
#[test]
fn accepted_cases_are_alike() {
    let mut random = Random::new(84);
    let mut accepted = 0;
    for _ in 0..8000 {
        let case = check_case(&mut random);
        let small = case.start.len() <= 16 && case.claimed.len() <= 16;
        if small && case.run().answer.number() == 0 && !case.rewriting.is_empty() {
            assert!(alike(&case.tables, &case.start, &case.claimed), "{case:?}");
            accepted += 1;
        }
    }
    assert!(accepted > 500, "{accepted}");
}

#[test]
fn every_small_left_side_at_every_place() {
    let tables = trial_tables();
    let alphabet = [0, 1, 2, 4, 64, 65, 66, 67, 68, 69, 70, 80];
    let plans: Vec<Vec<u8>> = (1..=3)
        .flat_map(|size| every_plan(&alphabet, size))
        .collect();
    let (mut made, mut refused) = (0, 0);
    for (left, law) in plans
        .iter()
        .flat_map(|left| (1..=32).map(move |law| (left, law)))
    {
        let right = apply(&tables, left, law, left.len() - 1);
        for (plan, place) in plans
            .iter()
            .step_by(3)
            .flat_map(|plan| (0..plan.len()).map(move |place| (plan, place)))
        {
            let record = Record {
                first: 128 + law,
                place,
                left: Some(left),
            };
            match step(&tables, plan, &record) {
                Some(next) => {
                    made += 1;
                    assert!(alike(&tables, plan, &next), "{plan:?} {record:?}");
                    assert!(next.ends_with(&plan[place + 1..]));
                }
                None => refused += usize::from(right.is_some()),
            }
        }
    }
    assert!(made > 1000 && refused > 10_000, "{made} {refused}");
}

#[test]
fn derivations_of_every_kind() {
    let mut random = Random::new(85);
    let mut kinds = BTreeSet::new();
    for _ in 0..500 {
        let tables = lawful_tables(&mut random);
        let plan = small_plan(&mut random, tables[0], 12);
        let made = any_derivation(&mut random, &tables, &plan, 5);
        let case = CheckCase {
            tables,
            start: made.start,
            claimed: made.end,
            rewriting: made.rewriting,
            a: vec![OLD; made.longest],
            b: vec![OLD; made.longest],
        };
        assert_eq!(case.run().answer.number(), 0, "{case:?}");
        let records = cut(&case.rewriting).unwrap();
        let backwards = records
            .iter()
            .filter(|record| record.left.is_some())
            .count();
        kinds.insert(match (backwards, records.len()) {
            (_, 0) => "no step",
            (0, _) => "forwards",
            (back, all) if back == all => "backwards",
            _ => "both ways",
        });
    }
    let kinds: Vec<&str> = kinds.into_iter().collect();
    assert_eq!(kinds, ["backwards", "both ways", "forwards", "no step"]);
}
