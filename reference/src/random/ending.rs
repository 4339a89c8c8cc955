//! Random plans whose run of steps without limits is soon at its end, and unfoldings of them with
//! limits close to what that run needs.

use super::cases::{areas, tables_and_plan, UnfoldCase};
use super::plans::repeating_basic_plan;
use super::tables::lawful_tables;
use super::Random;
use crate::ending::{whole_run, Budget, WholeRun};
use crate::plans::{judge, CHOICE, LONGEST_PLAN, PRODUCT, THETA};
use crate::unfolding::RECORD;

/// Runs within this are soon gone through, also those of [`growing_plan`] about the longest plan.
pub const SOON: Budget = Budget {
    steps: 400,
    words: LONGEST_PLAN + 1,
};

/// Tables and a plan, and its run.
#[derive(Clone, Debug)]
pub struct Ended {
    /// The tables.
    pub tables: Vec<u8>,
    /// The plan.
    pub plan: Vec<u8>,
    /// Its run of steps without limits.
    pub whole: WholeRun,
}

impl Ended {
    /// The run of a plan with these tables; none where one of them is refused, or the run is not
    /// soon at its end.
    pub fn of(tables: Vec<u8>, plan: Vec<u8>) -> Option<Ended> {
        judge(&tables, &plan).ok()?;
        let whole = whole_run(&tables, &plan, SOON)?;
        Some(Ended {
            tables,
            plan,
            whole,
        })
    }
}

/// Accepted tables and plan whose run is soon at its end; once in so many times its longest plan is
/// about as long as a plan may be.
pub fn ended(random: &mut Random, long_once_in: usize) -> Ended {
    loop {
        let (tables, plan) = match random.once_in(long_once_in) {
            true => with_growing_plan(random),
            false => tables_and_plan(random),
        };
        if let Some(ended) = Ended::of(tables, plan) {
            return ended;
        }
    }
}

/// Lawful tables, and a plan in whose run the longest one is about as long as a plan may be.
pub fn with_growing_plan(random: &mut Random) -> (Vec<u8>, Vec<u8>) {
    let tables = lawful_tables(random);
    let longest = random.between(LONGEST_PLAN - 1, LONGEST_PLAN + 1);
    let plan = growing_plan(random, tables[0], longest);
    (tables, plan)
}

/// A plan that becomes longer in its first step, and then has exactly so many words, 10 or more. No
/// later plan of its run, which has one step or two, is longer.
///
/// In (a + b)·z the basic plan z comes to stand twice. Actions in front add two words each, and a
/// further summand θ(c), which is unfolded last, three: such a number may be even.
pub fn growing_plan(random: &mut Random, n: u8, longest: usize) -> Vec<u8> {
    let any = |random: &mut Random| random.between(1, n as usize) as u8;
    let even = longest.is_multiple_of(2);
    // a·z + b·z has 4k + 3 words where k words of z are actions.
    let pairs = (longest - 3 - 3 * usize::from(even)) / 2;
    let k = random.between(1, pairs / 2);
    let z = repeating_basic_plan(random, n, k);
    let sum = [any(random), any(random), CHOICE];
    let mut plan: Vec<u8> = (2 * k..pairs).map(|_| any(random)).collect();
    let front = plan.len();
    plan.extend([&sum, &z[..], &[PRODUCT]].concat());
    if even {
        plan.extend([any(random), THETA, CHOICE]);
    }
    plan.extend(vec![PRODUCT; front]);
    plan
}

/// An unfolding of the plan: allowance, list and areas are what its run needs, or close to it.
pub fn ending_case(random: &mut Random, ended: &Ended) -> UnfoldCase {
    let WholeRun { steps, longest, .. } = ended.whole;
    let allowance = match random.below(4) {
        0 => steps.saturating_sub(1),
        1 => random.below(steps + 1),
        2 => random.near(steps, &[0, 1, 2 * steps, u32::MAX as usize]),
        _ => steps,
    };
    let list = match random.below(6) {
        0 => (RECORD * steps).saturating_sub(1),
        1 => random.below(RECORD * steps + 1),
        2 => RECORD * steps + random.below(7),
        _ => RECORD * steps,
    };
    let (a, b) = areas(random, ended.plan.len(), longest);
    UnfoldCase {
        tables: ended.tables.clone(),
        plan: ended.plan.clone(),
        allowance: allowance as u32,
        list: random.lent(list),
        a,
        b,
    }
}

/// The same unfolding with the same allowance or a larger one: that which the run needs, one close to
/// it, or one at an edge of its range. List and areas are as long, and hold other bytes before.
pub fn larger_case(random: &mut Random, case: &UnfoldCase, steps: usize) -> UnfoldCase {
    let steps = steps as u32;
    let larger = match random.below(4) {
        0 => steps + random.pick(&[0, 1, steps]),
        1 => case.allowance.saturating_add(random.below(9) as u32),
        2 => random.pick(&[1 << 16, 1 << 31, u32::MAX - 1]),
        _ => u32::MAX,
    };
    UnfoldCase {
        allowance: larger.max(case.allowance),
        list: random.lent(case.list.len()),
        a: random.lent(case.a.len()),
        b: random.lent(case.b.len()),
        ..case.clone()
    }
}
