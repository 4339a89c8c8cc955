//! Every number that unfolding, checking and reading a station file answer is reached by the random
//! cases. Those of the other calls are looked for beside their tests.

use reference::random::cases::{check_case, unfold_case};
use reference::random::stations::station_case;
use reference::random::Random;
use std::collections::BTreeSet;

fn reached(cases: usize, mut number: impl FnMut() -> u8) -> BTreeSet<u8> {
    (0..cases).map(|_| number()).collect()
}

fn tables_and_plans() -> BTreeSet<u8> {
    (0..=8).chain(11..=14).collect()
}

#[test]
fn unfolding_reaches_every_number() {
    let mut random = Random::new(21);
    let found = reached(3000, || unfold_case(&mut random).run().answer.number());
    let mut wanted = tables_and_plans();
    wanted.extend([15, 34, 35, 36]);
    assert_eq!(found, wanted);
}

#[test]
fn checking_reaches_every_number() {
    let mut random = Random::new(22);
    let found = reached(5000, || check_case(&mut random).run().answer.number());
    let mut wanted = tables_and_plans();
    wanted.extend([15, 16, 17, 18, 75, 31, 32, 33]);
    assert_eq!(found, wanted);
}

#[test]
fn station_files_reach_every_number() {
    let mut random = Random::new(23);
    let found = reached(5000, || match station_case(&mut random).run().answer {
        Ok(_) => 0,
        Err(refusal) => refusal.number,
    });
    // Tables in a file always have 2,305 bytes, so 1 can't come.
    let mut wanted = tables_and_plans();
    wanted.remove(&1);
    wanted.extend([51, 52, 53, 54, 55]);
    assert_eq!(found, wanted);
}
