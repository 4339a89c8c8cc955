//! The trial trays, through the safe calls.

use aberulwy::examples::trial_tables;
use aberulwy::*;

const BASIC: [u8; 9] = [1, 2, 65, 2, 1, 65, 64, 3, 64];
const STEPS: [(u8, u16); 4] = [(11, 2), (12, 2), (12, 5), (10, 9)];

/// Unfolds with these limits: how it ended, the steps and the plan reached.
fn unfolded(plan: &[u8], allowance: u32, list: usize, area: usize) -> (Unfolded, Vec<u8>) {
    let (mut list, mut a, mut b) = (vec![7; list], vec![7; area], vec![7; area]);
    let answer = unfold(&trial_tables(), plan, allowance, &mut list, &mut a, &mut b).unwrap();
    (answer, answer.reached(&a, &b).to_vec())
}

/// Unfolds to the end: the steps and the plan reached.
fn finished(plan: &[u8]) -> (usize, Vec<u8>) {
    let (answer, reached) = unfolded(plan, u32::MAX, 300, 64);
    assert_eq!(answer.ending, Ending::Finished);
    (answer.steps, reached)
}

#[test]
fn cases_1_to_8() {
    assert_eq!(finished(&[1, 2, 66]), (4, BASIC.to_vec()));
    assert_eq!(finished(&[1, 2, 66, 80]), (17, vec![3]));
    assert_eq!(finished(&[1, 4, 64, 70]), (6, vec![4]));
    assert_eq!(finished(&[1, 2, 64, 70]), (5, vec![1, 2, 64]));
    assert_eq!(finished(&[1, 2, 4, 65, 69]), (2, vec![1]));
    assert_eq!(finished(&[0]), (0, vec![0]));
    assert_eq!(finished(&[1, 0, 65]), (0, vec![1, 0, 65]));
    assert_eq!(finished(&[0, 1, 65]), (1, vec![0]));
    assert_eq!(finished(&[0, 0, 64]), (1, vec![0]));
}

#[test]
fn cases_9_to_11() {
    let ended = |allowance, list, area| {
        let (answer, _) = unfolded(&[1, 2, 66], allowance, list, area);
        (answer.ending, answer.steps)
    };
    assert_eq!(ended(3, 300, 64), (Ending::AllowanceSpent, 3));
    assert_eq!(ended(4, 300, 64), (Ending::Finished, 4));
    assert_eq!(ended(9, 300, 10), (Ending::AreasFull, 0));
    assert_eq!(ended(9, 300, 11), (Ending::Finished, 4));
    assert_eq!(ended(9, 11, 64), (Ending::ListFull, 3));
    assert_eq!(ended(9, 12, 64), (Ending::Finished, 4));
}

#[test]
fn every_lent_byte_of_case_1() {
    let (mut list, mut a, mut b) = ([7; 14], [7; 12], [7; 13]);
    let answer = unfold(&trial_tables(), &[1, 2, 66], 9, &mut list, &mut a, &mut b).unwrap();
    assert_eq!((answer.steps, answer.size), (4, 9));
    assert_eq!(answer.records(&list).collect::<Vec<_>>(), STEPS);
    assert_eq!(list, [11, 2, 0, 12, 2, 0, 12, 5, 0, 10, 9, 0, 0, 0]);
    assert_eq!(a, [1, 2, 65, 2, 1, 65, 64, 3, 64, 0, 0, 0]);
    assert_eq!(b, [1, 2, 65, 2, 1, 65, 64, 1, 2, 68, 64, 0, 0]);
}

#[test]
fn the_own_rewriting_is_accepted() {
    let (mut list, mut a, mut b) = ([7; 300], [7; 64], [7; 64]);
    let tables = trial_tables();
    let plan = [1, 2, 66, 80];
    let answer = unfold(&tables, &plan, 9, &mut list, &mut a, &mut b).unwrap();
    let (claimed, rewriting) = (answer.reached(&a, &b), answer.rewriting(&list));
    let (mut a2, mut b2) = ([9; 64], [9; 64]);
    let checked = check_rewriting(&tables, &plan, claimed, rewriting, &mut a2, &mut b2).unwrap();
    assert!(checked.accepted());
    assert_eq!((checked.steps, checked.size), (answer.steps, answer.size));
    assert_eq!(checked.reached(&a2, &b2), claimed);
    let wrong = check_rewriting(&tables, &plan, &[1], rewriting, &mut a2, &mut b2).unwrap();
    assert_eq!(wrong.verdict, Verdict::EndDiffers);
    let long = check_rewriting(&tables, &plan, claimed, rewriting, &mut a2[..11], &mut b2).unwrap();
    assert_eq!((long.verdict, long.steps), (Verdict::TooLong, 0));
}

#[test]
fn refusals_keep_the_lent_bytes() {
    let (mut list, mut a, mut b) = ([7; 9], [7; 2], [7; 9]);
    let tables = trial_tables();
    let refusal = unfold(&tables, &[1, 2, 66], 9, &mut list, &mut a, &mut b).unwrap_err();
    assert_eq!((refusal.number(), refusal.place()), (15, Place::Nowhere));
    let refusal =
        check_rewriting(&tables, &[1], &[1], &[1, 0, 0, 33, 0, 0], &mut a, &mut b).unwrap_err();
    assert_eq!((refusal.number(), refusal.place()), (17, Place::Step(1)));
    assert_eq!((list, a, b), ([7; 9], [7; 2], [7; 9]));
}

#[test]
fn unfolded_and_checked() {
    let (mut list, mut a, mut b) = ([7; 300], [7; 64], [7; 65]);
    let (mut c, mut d) = ([9; 64], [9; 65]);
    let tables = trial_tables();
    let plan = [1, 2, 66, 80];
    for allowance in [0, 1, 9, 17, 18] {
        let areas = [&mut a[..], &mut b[..]];
        let both = unfold_checked(
            &tables,
            &plan,
            allowance,
            &mut list,
            areas,
            [&mut c, &mut d],
        );
        let both = both.unwrap();
        assert_eq!(both.unfolded.steps, 17.min(allowance as usize));
        let own = both.own.unwrap();
        assert!(own.accepted());
        assert_eq!(
            (own.steps, own.size),
            (both.unfolded.steps, both.unfolded.size)
        );
        assert_eq!((a, b), (c, d));
        let mut copy = [7; 64];
        let (steps, size) = (own.steps, own.size);
        let copied = copy_reached(&a, &b, steps, size, &mut copy).unwrap();
        assert_eq!(copied, both.unfolded.reached(&a, &b));
    }
    let (before_a, before_c) = (a, c);
    let areas = [&mut a[..3], &mut b[..]];
    let refused = unfold_checked(&tables, &plan, 9, &mut list, areas, [&mut c, &mut d]);
    assert_eq!(refused.unwrap_err().number(), 15);
    assert_eq!((a, c), (before_a, before_c));
}

#[test]
fn the_listing_of_case_1() {
    let file = include_bytes!("../../../examples/trays/tray-1.station");
    let text = include_bytes!("../../../examples/trays/tray-1.txt");
    let mut out = vec![7; LONGEST_LISTING];
    assert_eq!(list_station(file, &mut out), Some(&text[..]));
    assert!(out[text.len()..].iter().all(|&byte| byte == 0));
    let mut short = vec![7; text.len() - 1];
    assert_eq!(list_station(file, &mut short), None);
    assert!(short.iter().all(|&byte| byte == 7));
}
