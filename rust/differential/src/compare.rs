//! The comparison, case by case.

use crate::cases::{Case, Outcome};
use crate::implementation::Implementation;
use crate::shrink::shrink;
use std::collections::BTreeMap;

/// All cases were answered alike.
#[derive(Clone, Debug, PartialEq, Eq)]
pub struct Agreement {
    /// How many cases ended in each number.
    pub numbers: BTreeMap<u8, u64>,
}

/// Two implementations answered a case differently.
#[derive(Clone, Debug)]
pub struct Difference {
    /// How many cases were answered alike before.
    pub passed: u64,
    /// The seed of the case as it was drawn.
    pub seed: u64,
    /// The case, made smaller.
    pub case: Case,
    /// What the first implementation does with it.
    pub first: Outcome,
    /// What the second implementation does with it.
    pub second: Outcome,
}

/// Runs so many cases through both implementations, from this seed on, until the first
/// difference.
pub fn compare(
    first: &impl Implementation,
    second: &impl Implementation,
    cases: u64,
    seed: u64,
) -> Result<Agreement, Box<Difference>> {
    let mut numbers = BTreeMap::new();
    for passed in 0..cases {
        let seed = case_seed(seed, passed);
        let case = Case::draw(seed);
        let outcome = case.run(first);
        if outcome == case.run(second) {
            *numbers.entry(outcome.answer.number).or_default() += 1;
            continue;
        }
        let case = shrink(case, |case| case.run(first) != case.run(second));
        return Err(Box::new(Difference {
            passed,
            seed,
            first: case.run(first),
            second: case.run(second),
            case,
        }));
    }
    Ok(Agreement { numbers })
}

/// Cases of one run, and of runs with other seeds, have seeds of their own.
fn case_seed(seed: u64, index: u64) -> u64 {
    seed.wrapping_mul(0x2545_F491_4F6C_DD1D).wrapping_add(index)
}
