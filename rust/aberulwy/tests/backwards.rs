//! Steps from right to left, through the safe call and the raw one: the sentences of request 108, what
//! is refused and in which order, and what the areas hold.

use aberulwy::examples::trial_tables;
use aberulwy::*;

/// What the areas hold before.
const BEFORE: u8 = 0xEE;
/// Both areas' bytes, where nothing else is asked for.
const AREA: usize = 12;

/// The answer of a check in areas of so many bytes, and the areas afterwards. The raw call answers
/// the same, and leaves the same bytes.
fn checked_in(
    [start, claimed]: [&[u8]; 2],
    rewriting: &[u8],
    area: usize,
) -> (Result<Checked, Refusal>, [Vec<u8>; 2]) {
    let tables = trial_tables();
    let fresh = || [vec![BEFORE; area], vec![BEFORE; area]];
    let ([mut a, mut b], [mut c, mut d]) = (fresh(), fresh());
    let answer = check_rewriting(&tables, start, claimed, rewriting, &mut a, &mut b);
    let (number, steps, size, place) = match answer {
        Ok(checked) => {
            let number = match checked.verdict {
                Verdict::Accepted => 0,
                Verdict::DoesNotFit => 31,
                Verdict::TooLong => 32,
                Verdict::EndDiffers => 33,
            };
            (number, checked.steps, checked.size, 0)
        }
        Err(refusal) => (refusal.number(), 0, 0, refusal.printed()),
    };
    let wanted = raw::Ended {
        number,
        steps,
        size,
        place,
    };
    let same = raw::check_rewriting(&tables, start, claimed, rewriting, &mut c, &mut d);
    assert_eq!(same, wanted);
    assert!(a == c && b == d);
    (answer, [a, b])
}

/// A plan, and zeros behind.
fn filled(plan: &[u8], area: usize) -> Vec<u8> {
    let mut filled = plan.to_vec();
    filled.resize(area, 0);
    filled
}

/// A single step leads from one plan to another, whichever is claimed, and stands in B.
fn leads(from: &[u8], record: &[u8], to: &[u8]) {
    let wanted = [filled(from, AREA), filled(to, AREA)];
    let (answer, areas) = checked_in([from, to], record, AREA);
    assert_eq!(answer.map(|checked| checked.verdict), Ok(Verdict::Accepted));
    assert_eq!(areas, wanted);
    let (answer, areas) = checked_in([from, &[4]], record, AREA);
    assert_eq!(
        answer.map(|checked| (checked.verdict, checked.steps)),
        Ok((Verdict::EndDiffers, 1))
    );
    assert_eq!(areas, wanted);
}

/// A step is turned back before it is made (31, or 32).
fn turned_back(from: &[u8], record: &[u8], area: usize, verdict: Verdict) {
    let (answer, areas) = checked_in([from, from], record, area);
    let size = from.len();
    let wanted = Checked {
        verdict,
        steps: 0,
        size,
    };
    assert_eq!(answer, Ok(wanted));
    assert_eq!(areas, [filled(from, area), filled(&[], area)]);
}

fn does_not_fit(from: &[u8], record: &[u8]) {
    turned_back(from, record, AREA, Verdict::DoesNotFit);
}

/// The rewriting is refused so, and the areas keep their bytes.
fn refused(rewriting: &[u8], number: u8, place: Place) {
    let (answer, areas) = checked_in([&[1], &[1]], rewriting, AREA);
    let refusal = answer.unwrap_err();
    assert_eq!((refusal.number(), refusal.place()), (number, place));
    assert_eq!(areas, [vec![BEFORE; AREA], vec![BEFORE; AREA]]);
}

/// "It fits when that law, applied at the last of those words, gives exactly the subplan at the
/// place. The whole left side then replaces it."
#[test]
fn the_request() {
    leads(&[1], &[132, 0, 0, 3, 0, 1, 1, 64], &[1, 1, 64]);
    // At the first operand, at the second, and at both.
    let sum = [1, 2, 64];
    leads(&sum, &[135, 0, 0, 3, 0, 1, 0, 64], &[1, 0, 64, 2, 64]);
    leads(&sum, &[136, 1, 0, 3, 0, 0, 2, 64], &[1, 0, 2, 64, 64]);
    leads(&sum, &[129, 2, 0, 3, 0, 2, 1, 64], &[2, 1, 64]);
    // "exactly the subplan": the left side gives 1, and 2 stands there; or one that holds 1.
    does_not_fit(&sum, &[132, 1, 0, 3, 0, 1, 1, 64]);
    does_not_fit(&sum, &[132, 2, 0, 3, 0, 1, 1, 64]);
    // The law does not fit at the left side's last word, though it does within.
    does_not_fit(&[2, 1, 65], &[129, 2, 0, 5, 0, 1, 2, 64, 1, 65]);
    // The place is past the end.
    does_not_fit(&sum, &[132, 3, 0, 3, 0, 1, 1, 64]);
    does_not_fit(&sum, &[132, 0, 1, 3, 0, 1, 1, 64]);
}

/// Laws that read the tables do so from right to left too: 1|2 is 3, set 0 holds 1 and 2, 1 < 4.
#[test]
fn laws_of_the_tables() {
    leads(&[3], &[138, 0, 0, 3, 0, 2, 1, 68], &[2, 1, 68]);
    does_not_fit(&[3], &[138, 0, 0, 3, 0, 1, 1, 68]);
    leads(&[0], &[138, 0, 0, 3, 0, 1, 1, 68], &[1, 1, 68]);
    leads(&[3], &[148, 0, 0, 2, 0, 3, 80], &[3, 80]);
    does_not_fit(&[1], &[148, 0, 0, 2, 0, 1, 80]);
    leads(&[0], &[149, 0, 0, 2, 0, 1, 80], &[1, 80]);
    leads(&[0], &[153, 0, 0, 3, 0, 1, 4, 69], &[1, 4, 69]);
    does_not_fit(&[0], &[153, 0, 0, 3, 0, 4, 1, 69]);
    leads(&[4], &[152, 0, 0, 3, 0, 4, 1, 69], &[4, 1, 69]);
}

/// 31 comes before 32, and 32 by the areas: a left side may be longer than they are.
#[test]
fn plans_that_are_too_long() {
    let back = [132, 0, 0, 3, 0, 1, 1, 64];
    turned_back(&[1], &back, 2, Verdict::TooLong);
    turned_back(&[2], &back, 2, Verdict::DoesNotFit);
    let (answer, areas) = checked_in([&[1], &[1, 1, 64]], &back, 3);
    assert!(answer.unwrap().accepted());
    assert_eq!(areas, [vec![1, 0, 0], vec![1, 1, 64]]);
}

/// "16 now means a last record cut short, and any unknown first byte counts as a record of three.
/// After 17, and before any step, a carried left side that isn't an accepted plan gets 75 (first
/// step)."
#[test]
fn refusals_of_records() {
    let (nowhere, back) = (Place::Nowhere, [132, 0, 0, 3, 0, 1, 1, 64]);
    for cut in 1..back.len() {
        refused(&back[..cut], 16, nowhere);
        refused(&[&back[..], &back[..cut]].concat(), 16, nowhere);
        // Before 17, and before 75.
        refused(&[&[0, 0, 0], &back[..cut]].concat(), 16, nowhere);
        let no_plan = [129, 0, 0, 1, 0, 64];
        refused(&[&no_plan[..], &back[..cut]].concat(), 16, nowhere);
    }
    for unknown in [0].into_iter().chain(33..=128).chain(161..=255) {
        refused(&[unknown, 0, 0], 17, Place::Step(0));
        refused(&[unknown, 0], 16, nowhere);
        // Steps are counted by records; and before 75.
        refused(&[&back[..], &[unknown, 9, 9]].concat(), 17, Place::Step(1));
        refused(&[129, 0, 0, 1, 0, 64, unknown, 0, 0], 17, Place::Step(1));
    }
    // No words; no word; too few operands; two plans; and after a step that does not fit.
    let carried: [&[u8]; 5] = [&[], &[5], &[64], &[1, 1], &[1, 1, 88]];
    for left in carried {
        let head = [132, 0, 0, left.len() as u8, 0];
        let record = [&head[..], left].concat();
        refused(&record, 75, Place::Step(0));
        let second = [&[4, 0, 0], &record[..], &record[..]].concat();
        refused(&second, 75, Place::Step(1));
    }
}

/// Areas go by the records, in whichever direction: the plan reached is in A after an even number of
/// them.
#[test]
fn areas_after_steps_in_both_directions() {
    let back = [132, 0, 0, 3, 0, 1, 1, 64];
    let both = [&back[..], &[4, 2, 0]].concat();
    let (answer, areas) = checked_in([&[1], &[1]], &both, AREA);
    let answer = answer.unwrap();
    assert!(answer.accepted());
    assert_eq!((answer.steps, answer.size), (2, 1));
    assert_eq!(areas, [filled(&[1], AREA), filled(&[1, 1, 64], AREA)]);
    // The third step does not fit: as after two.
    let (answer, same) = checked_in([&[1], &[1]], &[&both[..], &[4, 0, 0]].concat(), AREA);
    assert_eq!(
        answer.map(|checked| (checked.verdict, checked.steps)),
        Ok((Verdict::DoesNotFit, 2))
    );
    assert_eq!(same, areas);
}
