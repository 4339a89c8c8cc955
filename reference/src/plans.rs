//! Plans: their words, when they are accepted, their terms, which are basic, and how many of
//! their paths finish or are stuck.

use crate::refusals::Refusal;
use crate::tables::{actions, judge_tables, DEAD_STOP};
use std::fmt;
use std::mem::replace;

/// "A plan is 1 to 16,384 bytes".
pub const LONGEST_PLAN: usize = 16_384;
/// x + y.
pub const CHOICE: u8 = 64;
/// x · y.
pub const PRODUCT: u8 = 65;
/// x ‖ y.
pub const MERGE: u8 = 66;
/// x ⌊ y.
pub const LEFT_MERGE: u8 = 67;
/// x | y.
pub const COMMUNICATION_MERGE: u8 = 68;
/// x ◁ y.
pub const UNLESS: u8 = 69;
/// θ(x).
pub const THETA: u8 = 70;
/// ∂(x) by set 0; the other seven sets follow.
pub const ENCAPSULATION: u8 = 80;
/// ∂(x) by set 7.
pub const LAST_ENCAPSULATION: u8 = 87;

/// "A table of 256 entries says how many operands each byte takes: 0 for 0 to 31, 2 or
/// 1 for the signs, 3 for any other byte."
pub fn operands(byte: u8) -> u8 {
    match byte {
        0..=31 => 0,
        CHOICE..=UNLESS => 2,
        THETA | ENCAPSULATION..=LAST_ENCAPSULATION => 1,
        _ => 3,
    }
}

/// "A word is read by its value: 0 to n an action; … Any other value is no word."
pub fn is_word(tables: &[u8], byte: u8) -> bool {
    match operands(byte) {
        0 => byte <= actions(tables),
        1 | 2 => true,
        _ => false,
    }
}

/// "judges the tables (1 to 8), then the plan (11 to 14)".
pub fn judge(tables: &[u8], plan: &[u8]) -> Result<(), Refusal> {
    judge_tables(tables)?;
    judge_plan(tables, plan)
}

/// "11 plan empty or above 16,384. 12 no word, 13 too few operands: the first such byte,
/// 12 before 13. 14 more than one plan left over." The tables are accepted ones.
pub fn judge_plan(tables: &[u8], plan: &[u8]) -> Result<(), Refusal> {
    if plan.is_empty() || plan.len() > LONGEST_PLAN {
        return Err(Refusal::nowhere(11));
    }
    let mut waiting = 0;
    for (index, &byte) in plan.iter().enumerate() {
        if !is_word(tables, byte) {
            return Err(Refusal::at_byte(12, index));
        }
        let taken = operands(byte) as usize;
        if waiting < taken {
            return Err(Refusal::at_byte(13, index));
        }
        waiting = waiting - taken + 1;
    }
    if waiting > 1 {
        return Err(Refusal::nowhere(14));
    }
    Ok(())
}

/// For every place of an accepted plan, the index of the first word of the subplan there.
pub fn starts(plan: &[u8]) -> Vec<usize> {
    let mut starts = Vec::with_capacity(plan.len());
    let mut waiting = Vec::new();
    for (place, &word) in plan.iter().enumerate() {
        let mut start = place;
        for _ in 0..operands(word) {
            start = waiting.pop().expect("an accepted plan has the operands");
        }
        waiting.push(start);
        starts.push(start);
    }
    starts
}

/// "The place of a subplan is the index, from 0, of its last word." The words of the
/// subplan at that place of an accepted plan.
pub fn subplan(plan: &[u8], place: usize) -> &[u8] {
    let mut missing = 1;
    let mut start = place + 1;
    while missing > 0 {
        start -= 1;
        missing = missing - 1 + operands(plan[start]) as usize;
    }
    &plan[start..=place]
}

/// A plan as a term.
pub enum Term {
    /// An action, dead stop among them.
    Action(u8),
    /// A sign of one operand.
    One(u8, Box<Term>),
    /// A sign of two operands.
    Two(u8, Box<Term>, Box<Term>),
}

/// The term of an accepted plan: "in postfix order".
pub fn term(plan: &[u8]) -> Term {
    let mut waiting: Vec<Term> = Vec::new();
    let missing = "an accepted plan has the operands";
    for &word in plan {
        let read = match operands(word) {
            0 => Term::Action(word),
            1 => Term::One(word, Box::new(waiting.pop().expect(missing))),
            _ => {
                let y = waiting.pop().expect(missing);
                let x = waiting.pop().expect(missing);
                Term::Two(word, Box::new(x), Box::new(y))
            }
        };
        waiting.push(read);
    }
    waiting.pop().expect("an accepted plan is not empty")
}

/// The words of a term, in postfix order.
pub fn words(term: &Term) -> Vec<u8> {
    let mut backwards = Vec::new();
    let mut waiting = vec![term];
    while let Some(term) = waiting.pop() {
        match term {
            Term::Action(word) => backwards.push(*word),
            Term::One(word, x) => {
                backwards.push(*word);
                waiting.push(x);
            }
            Term::Two(word, x, y) => {
                backwards.push(*word);
                waiting.push(x);
                waiting.push(y);
            }
        }
    }
    backwards.reverse();
    backwards
}

/// Terms may be 16,384 deep, so they are taken apart without recursion.
impl Drop for Term {
    fn drop(&mut self) {
        let mut waiting = Vec::new();
        take_operands(self, &mut waiting);
        while let Some(mut operand) = waiting.pop() {
            take_operands(&mut operand, &mut waiting);
        }
    }
}

fn take_operands(term: &mut Term, taken: &mut Vec<Term>) {
    let mut take = |operand: &mut Term| taken.push(replace(operand, Term::Action(DEAD_STOP)));
    match term {
        Term::Action(_) => {}
        Term::One(_, x) => take(x),
        Term::Two(_, x, y) => {
            take(x);
            take(y);
        }
    }
}

impl fmt::Debug for Term {
    fn fmt(&self, f: &mut fmt::Formatter<'_>) -> fmt::Result {
        write!(f, "Term{:?}", words(self))
    }
}

/// "Basic: δ, or a sum-plan; a sum-plan is an action other than 0, such an action · a
/// basic plan, or sum-plan + sum-plan." The plan is an accepted one.
pub fn is_basic(plan: &[u8]) -> bool {
    let whole = term(plan);
    let mut basic_wanted = vec![&whole];
    while let Some(basic) = basic_wanted.pop() {
        if !matches!(basic, Term::Action(DEAD_STOP)) && !is_sum_plan(basic, &mut basic_wanted) {
            return false;
        }
    }
    true
}

/// Whether the term is a sum-plan, but for the plans after its first actions: these
/// are handed back, to be basic as well.
fn is_sum_plan<'t>(term: &'t Term, basic_wanted: &mut Vec<&'t Term>) -> bool {
    let mut sum_plans_wanted = vec![term];
    while let Some(sum_plan) = sum_plans_wanted.pop() {
        match sum_plan {
            Term::Action(a) if *a != DEAD_STOP => {}
            Term::Two(PRODUCT, a, x) if is_live_action(a) => basic_wanted.push(x),
            Term::Two(CHOICE, x, y) => sum_plans_wanted.extend([&**x, &**y]),
            _ => return false,
        }
    }
    true
}

/// An action other than 0.
fn is_live_action(term: &Term) -> bool {
    matches!(term, Term::Action(a) if *a != DEAD_STOP)
}

/// How many paths of a plan finish, and how many are stuck.
#[derive(Clone, Copy, Debug, PartialEq, Eq)]
pub struct Counts {
    /// The paths that finish.
    pub orders: usize,
    /// The paths into a dead stop.
    pub stuck: usize,
}

/// "Count finishing paths as orders, and paths into a dead stop as stuck. The plan `0` has no
/// order and one stuck; a plan not basic has 0 of both." (Request 103.) As in document 01, "a·x
/// counts x's, a sum adds": a path that stands twice in the words counts twice. The plan is an
/// accepted one.
pub fn counts(plan: &[u8]) -> Counts {
    let both = |orders, stuck| Counts { orders, stuck };
    if !is_basic(plan) {
        return both(0, 0);
    }
    let mut waiting: Vec<Counts> = Vec::new();
    for &word in plan {
        let mut operand = || waiting.pop().expect("an accepted plan has the operands");
        let counted = match word {
            DEAD_STOP => both(0, 1),
            CHOICE => {
                let (y, x) = (operand(), operand());
                both(x.orders + y.orders, x.stuck + y.stuck)
            }
            PRODUCT => {
                // No path ends at the first factor, which is one action.
                let (x, _) = (operand(), operand());
                x
            }
            _ => both(1, 0),
        };
        waiting.push(counted);
    }
    waiting.pop().expect("an accepted plan is not empty")
}

/// Whether the plan is basic, after judging tables and plan.
pub fn judged_basic(tables: &[u8], plan: &[u8]) -> Result<bool, Refusal> {
    judge(tables, plan)?;
    Ok(is_basic(plan))
}

/// The plan's orders and its stuck paths, after judging tables and plan.
pub fn judged_orders(tables: &[u8], plan: &[u8]) -> Result<Counts, Refusal> {
    judge(tables, plan)?;
    Ok(counts(plan))
}

#[cfg(test)]
mod tests {
    use super::*;
    use crate::tables::trial_tables;

    fn refused(plan: &[u8]) -> (u8, usize) {
        let refusal = judge_plan(&trial_tables(), plan).unwrap_err();
        (refusal.number, refusal.printed())
    }

    #[test]
    fn refusals_of_plans() {
        assert_eq!(refused(&[]), (11, 0));
        assert_eq!(refused(&[0; 16_385]), (11, 0));
        assert_eq!(refused(&[0; 16_384]), (14, 0));
        assert_eq!(refused(&[1, 5]), (12, 1));
        assert_eq!(refused(&[1, 2, 31]), (12, 2));
        assert_eq!(refused(&[71]), (12, 0));
        assert_eq!(refused(&[64, 255]), (13, 0));
        assert_eq!(refused(&[1, 64]), (13, 1));
        assert_eq!(refused(&[1, 88]), (12, 1));
        assert_eq!(refused(&[1, 2]), (14, 0));
    }

    /// The orders and the stuck paths of a plan.
    fn counted(plan: &[u8]) -> (usize, usize) {
        let Counts { orders, stuck } = counts(plan);
        (orders, stuck)
    }

    #[test]
    fn basic_plans_and_their_counts() {
        let cases: [(&[u8], (usize, usize)); 15] = [
            (&[0], (0, 1)),
            (&[1], (1, 0)),
            (&[4], (1, 0)),
            (&[1, 0, 65], (0, 1)),
            (&[1, 2, 65], (1, 0)),
            (&[1, 2, 0, 65, 65], (0, 1)),
            (&[1, 0, 65, 2, 64], (1, 1)),
            (&[2, 1, 0, 65, 64], (1, 1)),
            (&[1, 2, 65, 2, 1, 65, 64, 3, 64], (3, 0)),
            // A path that stands twice counts twice.
            (&[1, 1, 64], (2, 0)),
            (&[1, 0, 65, 1, 0, 65, 64], (0, 2)),
            // A choice behind an action: 1·(2·δ + 3), and 1·(2·δ + 3) + 4·δ.
            (&[1, 2, 0, 65, 3, 64, 65], (1, 1)),
            (&[1, 2, 0, 65, 3, 64, 65, 4, 0, 65, 64], (1, 2)),
            // Sums of both groupings: (1 + 2·δ) + 3, and 1·δ + (2 + 3·δ).
            (&[1, 2, 0, 65, 64, 3, 64], (2, 1)),
            (&[1, 0, 65, 2, 3, 0, 65, 64, 64], (1, 2)),
        ];
        for (plan, count) in cases {
            assert_eq!(counted(plan), count, "{plan:?}");
            assert!(is_basic(plan), "{plan:?}");
        }
    }

    #[test]
    fn plans_that_are_not_basic_count_nothing() {
        let cases: [&[u8]; 10] = [
            &[0, 1, 64],
            &[1, 0, 64],
            &[0, 0, 64],
            &[1, 2, 65, 3, 65],
            &[0, 1, 65],
            &[0, 0, 65],
            &[1, 70],
            &[0, 80],
            &[1, 2, 66],
            &[1, 1, 0, 64, 65],
        ];
        for plan in cases {
            assert_eq!(counted(plan), (0, 0), "{plan:?}");
            assert!(!is_basic(plan), "{plan:?}");
        }
    }

    #[test]
    fn counts_after_judging() {
        let tables = trial_tables();
        let judged = |plan: &[u8]| judged_orders(&tables, plan);
        let both = Counts {
            orders: 1,
            stuck: 1,
        };
        assert_eq!(judged(&[1, 0, 65, 2, 64]), Ok(both));
        let none = Counts {
            orders: 0,
            stuck: 0,
        };
        assert_eq!(judged(&[1, 2, 66]), Ok(none));
        assert_eq!(judged(&[1, 5, 65]), Err(Refusal::at_byte(12, 1)));
        assert_eq!(judged_orders(&[], &[0]), Err(Refusal::nowhere(1)));
    }

    #[test]
    fn long_plans_and_their_counts() {
        let chain = |last: u8| {
            let mut chain = vec![1; 8191];
            chain.push(last);
            chain.resize(16_383, 65);
            chain
        };
        assert_eq!(counted(&chain(1)), (1, 0));
        assert_eq!(counted(&chain(0)), (0, 1));
        // The most orders, and the most that are stuck, with sums of either grouping.
        let left = |summand: &[u8], others: usize| {
            let other = [summand, &[64]].concat();
            [summand, &other.repeat(others)].concat()
        };
        let right =
            |summand: &[u8], others: usize| [summand.repeat(others + 1), vec![64; others]].concat();
        assert_eq!(counted(&left(&[1], 8191)), (8192, 0));
        assert_eq!(counted(&right(&[1], 8191)), (8192, 0));
        assert_eq!(counted(&left(&[1, 0, 65], 4095)), (0, 4096));
        assert_eq!(counted(&right(&[1, 0, 65], 4095)), (0, 4096));
        let mixed = [2, 1, 0, 65, 64];
        assert_eq!(counted(&left(&mixed, 2729)), (2730, 2730));
        assert_eq!(counted(&right(&mixed, 2729)), (2730, 2730));
        // A dead stop at the far end of a long sum is no sum-plan.
        let spoilt = [left(&[1], 8190), vec![0, 64]].concat();
        assert_eq!(counted(&spoilt), (0, 0));
    }

    #[test]
    fn subplans() {
        let plan = [1, 2, 65, 2, 70, 64];
        assert_eq!(starts(&plan), [0, 1, 0, 3, 3, 0]);
        assert_eq!(subplan(&plan, 2), [1, 2, 65]);
        assert_eq!(subplan(&plan, 4), [2, 70]);
        assert_eq!(words(&term(&plan)), plan);
    }

    #[test]
    fn deep_plans() {
        let mut plan = vec![1];
        plan.resize(16_384, 70);
        assert_eq!(judge_plan(&trial_tables(), &plan), Ok(()));
        assert_eq!(words(&term(&plan)), plan);
        assert!(!is_basic(&plan));
        assert_eq!(counted(&plan), (0, 0));
    }

    #[test]
    fn operand_table() {
        let of = |count| (0..=255).filter(|&b| operands(b) == count).count();
        assert_eq!([of(0), of(1), of(2), of(3)], [32, 9, 6, 209]);
    }
}
