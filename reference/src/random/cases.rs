//! Whole cases of unfolding and checking: everything that is handed to a call, and what comes out
//! of it.

use super::plans::{any_plan, damaged_plan, plan, small_plan};
use super::rewritings::{damage_rewriting, derivation, derivation_both_ways, Derivation};
use super::tables::{damaged_tables, lawful_tables};
use super::Random;
use crate::checking::{self, check_rewriting};
use crate::ending::next_plan;
use crate::plans::{judge, LONGEST_PLAN};
use crate::runs::reached;
use crate::tables::trial_tables;
use crate::turning::turned_round;
use crate::unfolding::{self, unfold, RECORD};

/// Lengths of areas worth trying whatever the plan.
pub(super) const AREA_EDGES: [usize; 8] = [0, 1, 2, 10, 8192, 16_383, 16_384, 16_385];

/// What is handed to the unfolding.
#[derive(Clone, Debug)]
pub struct UnfoldCase {
    /// The tables.
    pub tables: Vec<u8>,
    /// The plan.
    pub plan: Vec<u8>,
    /// The allowance.
    pub allowance: u32,
    /// The list, with the bytes it has before.
    pub list: Vec<u8>,
    /// Area A, with the bytes it has before.
    pub a: Vec<u8>,
    /// Area B, with the bytes it has before.
    pub b: Vec<u8>,
}

/// What the unfolding answers, and the lent bytes afterwards.
#[derive(Clone, Debug, PartialEq, Eq)]
pub struct Unfolded {
    /// The answer.
    pub answer: unfolding::Answer,
    /// The list.
    pub list: Vec<u8>,
    /// Area A.
    pub a: Vec<u8>,
    /// Area B.
    pub b: Vec<u8>,
}

impl UnfoldCase {
    /// Unfolds, leaving the case as it is.
    pub fn run(&self) -> Unfolded {
        let (mut list, mut a, mut b) = (self.list.clone(), self.a.clone(), self.b.clone());
        let answer = unfold(
            &self.tables,
            &self.plan,
            self.allowance,
            &mut list,
            &mut a,
            &mut b,
        );
        Unfolded { answer, list, a, b }
    }
}

impl Unfolded {
    /// The plan reached; none if refused.
    pub fn reached(&self) -> Option<&[u8]> {
        match self.answer {
            unfolding::Answer::Refused(_) => None,
            unfolding::Answer::Ended { steps, size, .. } => {
                Some(reached(&self.a, &self.b, steps, size))
            }
        }
    }
}

/// What is handed to the checker.
#[derive(Clone, Debug)]
pub struct CheckCase {
    /// The tables.
    pub tables: Vec<u8>,
    /// The start plan.
    pub start: Vec<u8>,
    /// The claimed end plan.
    pub claimed: Vec<u8>,
    /// The rewriting.
    pub rewriting: Vec<u8>,
    /// Area A, with the bytes it has before.
    pub a: Vec<u8>,
    /// Area B, with the bytes it has before.
    pub b: Vec<u8>,
}

/// What the checker answers, and the lent bytes afterwards.
#[derive(Clone, Debug, PartialEq, Eq)]
pub struct Checked {
    /// The answer.
    pub answer: checking::Answer,
    /// Area A.
    pub a: Vec<u8>,
    /// Area B.
    pub b: Vec<u8>,
}

impl CheckCase {
    /// Checks, leaving the case as it is.
    pub fn run(&self) -> Checked {
        let (mut a, mut b) = (self.a.clone(), self.b.clone());
        let answer = check_rewriting(
            &self.tables,
            &self.start,
            &self.claimed,
            &self.rewriting,
            &mut a,
            &mut b,
        );
        Checked { answer, a, b }
    }
}

/// A case for the unfolding: mostly with accepted tables and plan, and limits close to
/// what the plan needs.
pub fn unfold_case(random: &mut Random) -> UnfoldCase {
    let (tables, plan) = tables_and_plan(random);
    unfold_case_of(random, tables, plan)
}

/// A case for the unfolding of this plan with these tables, accepted or not.
pub fn unfold_case_of(random: &mut Random, tables: Vec<u8>, plan: Vec<u8>) -> UnfoldCase {
    let (steps, longest) = needs(&tables, &plan);
    let allowance = match random.below(4) {
        0 => random.near(steps, &[0, 1, u32::MAX as usize, 5000]) as u32,
        _ => u32::MAX,
    };
    let list = match random.below(3) {
        0 => random.near(RECORD * steps, &[0, 1, 2, 3, 4, 5, 100]),
        _ => RECORD * steps + random.below(7),
    };
    let (a, b) = areas(random, plan.len(), longest);
    UnfoldCase {
        tables,
        plan,
        allowance,
        list: random.lent(list),
        a,
        b,
    }
}

/// Mostly accepted tables and an accepted plan; sometimes one of them is damaged, or both.
pub fn tables_and_plan(random: &mut Random) -> (Vec<u8>, Vec<u8>) {
    let tables = match random.below(8) {
        0 => damaged_tables(random),
        1 => trial_tables(),
        _ => lawful_tables(random),
    };
    let n = tables.first().copied().unwrap_or(1).clamp(1, 31);
    let plan = match random.below(8) {
        0 => damaged_plan(random, n),
        _ => any_plan(random, n),
    };
    (tables, plan)
}

/// The words that are gone through, in all plans together, to find what an unfolding
/// needs.
const MOST_WORDS: usize = 200_000;

/// The steps an unfolding takes and the words of the longest plan on its way, or of its
/// beginning if it is a long one.
fn needs(tables: &[u8], plan: &[u8]) -> (usize, usize) {
    if judge(tables, plan).is_err() {
        return (4, plan.len() + 2);
    }
    let mut current = plan.to_vec();
    let (mut steps, mut longest, mut words) = (0, plan.len(), 0);
    while let Some(next) = next_plan(tables, &current) {
        words += next.len();
        if next.len() > LONGEST_PLAN || words > MOST_WORDS {
            break;
        }
        steps += 1;
        longest = longest.max(next.len());
        current = next;
    }
    (steps, longest)
}

/// Two areas, the smaller one close to the longest plan or to the plan given.
pub(super) fn areas(random: &mut Random, words: usize, longest: usize) -> (Vec<u8>, Vec<u8>) {
    let least = match random.below(8) {
        0 => random.near(words, &AREA_EDGES),
        1 => random.near(longest, &AREA_EDGES),
        2 => random.pick(&AREA_EDGES),
        3 => longest.saturating_sub(1),
        4 => longest + random.below(30),
        _ => longest,
    };
    let other = match random.below(3) {
        0 => least,
        1 => least + random.below(5),
        _ => random.pick(&AREA_EDGES).max(least),
    };
    let (a, b) = random.pick(&[(least, other), (other, least)]);
    (random.lent(a), random.lent(b))
}

/// A case for the checker: a derivation, whole or damaged, with a right or wrong claim.
pub fn check_case(random: &mut Random) -> CheckCase {
    let (tables, plan) = tables_and_plan(random);
    if judge(&tables, &plan).is_err() {
        return check_case_refused(random, tables, plan);
    }
    let most_steps = random.pick(&[0, 1, 2, 3, 5, 10, 30]);
    let made = any_derivation(random, &tables, &plan, most_steps);
    let (a, b) = areas(random, made.start.len(), made.longest);
    let claimed = claim(random, tables[0], &made);
    let mut rewriting = made.rewriting;
    if random.once_in(2) {
        damage_rewriting(random, &tables, &mut rewriting, &made.end);
    }
    while random.once_in(12) {
        damage_rewriting(random, &tables, &mut rewriting, &made.end);
    }
    CheckCase {
        tables,
        start: made.start,
        claimed,
        rewriting,
        a,
        b,
    }
}

/// A derivation with this plan at one of its ends: all its steps go forwards, or all backwards, or
/// they go both ways.
pub fn any_derivation(
    random: &mut Random,
    tables: &[u8],
    plan: &[u8],
    most_steps: usize,
) -> Derivation {
    let made = match random.once_in(2) {
        true => derivation(random, tables, plan, most_steps, LONGEST_PLAN),
        false => derivation_both_ways(random, tables, plan, most_steps, LONGEST_PLAN),
    };
    match random.once_in(3) {
        true => made.turned_round(tables),
        false => made,
    }
}

/// A case whose tables or start plan are refused, with anything besides.
fn check_case_refused(random: &mut Random, tables: Vec<u8>, start: Vec<u8>) -> CheckCase {
    let n = tables.first().copied().unwrap_or(1).clamp(1, 31);
    let (a, b) = areas(random, start.len(), start.len());
    CheckCase {
        claimed: random.pick(&[start.clone(), vec![0], vec![], vec![255]]),
        rewriting: random.pick(&[
            vec![],
            vec![1],
            vec![0, 0, 0],
            vec![1, n, 0],
            vec![129, 0, 0],
            vec![129, 0, 0, 0, 0],
        ]),
        tables,
        start,
        a,
        b,
    }
}

/// The plan claimed: mostly the end of the derivation.
fn claim(random: &mut Random, n: u8, made: &Derivation) -> Vec<u8> {
    match random.below(24) {
        0 => made.start.clone(),
        1 => any_plan(random, n),
        2 | 3 => damaged_plan(random, n),
        4 => {
            let longer = made.longest + random.between(1, 4);
            plan(random, n, longer.min(LONGEST_PLAN))
        }
        5 => [&made.end[..], &[70]].concat(),
        6 => small_plan(random, n, 3),
        7 => vec![0; random.pick(&[0, 1, 2, 16_384, 16_385])],
        _ => made.end.clone(),
    }
}

/// The unfolding's own rewriting, handed to the checker with the given plan as start and the
/// plan reached as claimed: none where the unfolding is refused.
pub fn own_rewriting_case(case: &UnfoldCase) -> Option<CheckCase> {
    let unfolded = case.run();
    let claimed = unfolded.reached()?.to_vec();
    let unfolding::Answer::Ended { steps, .. } = unfolded.answer else {
        return None;
    };
    Some(CheckCase {
        tables: case.tables.clone(),
        start: case.plan.clone(),
        claimed,
        rewriting: unfolded.list[..RECORD * steps].to_vec(),
        a: case.a.clone(),
        b: case.b.clone(),
    })
}

/// An accepted rewriting turned round: from the claimed plan to the start plan, with the same areas.
/// None where the case is not accepted.
pub fn turned_case(case: &CheckCase) -> Option<CheckCase> {
    if case.run().answer.number() != 0 {
        return None;
    }
    Some(CheckCase {
        tables: case.tables.clone(),
        start: case.claimed.clone(),
        claimed: case.start.clone(),
        rewriting: turned_round(&case.tables, &case.start, &case.rewriting)?,
        a: case.a.clone(),
        b: case.b.clone(),
    })
}
