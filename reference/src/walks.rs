//! Walks: the hub holds its progress through a basic plan, and takes messages one by one.
//!
//! ```
//! use reference::tables::trial_tables;
//! use reference::walks::{fresh_walk, walk};
//! use reference::Refusal;
//!
//! let (tables, plan) = (trial_tables(), [1, 2, 65, 1, 3, 65, 64]);
//! let (mut marks, mut finished) = ([9; 7], true);
//! assert_eq!(fresh_walk(&tables, &plan, &mut marks, &mut finished), Ok(()));
//! assert_eq!((marks, finished), ([0, 0, 0, 0, 0, 0, 1], false));
//! assert_eq!(walk(&tables, &plan, &mut marks, 1, &mut finished), Ok(()));
//! assert_eq!((marks, finished), ([0, 1, 0, 0, 1, 0, 0], false));
//! let refusal = walk(&tables, &plan, &mut marks, 4, &mut finished);
//! assert_eq!(refusal, Err(Refusal::nowhere(72)));
//! assert_eq!(walk(&tables, &plan, &mut marks, 3, &mut finished), Ok(()));
//! assert_eq!((marks, finished), ([0; 7], true));
//! ```
//!
//! A message is followed from the marked subplans down: a sum hands it on to both of its
//! summands, until an action or a product takes it or not.

use crate::plans::{is_basic, judge, CHOICE, PRODUCT};
use crate::refusals::Refusal;
use crate::tables::{outside, DEAD_STOP};
use std::collections::BTreeSet;
use std::mem::replace;

/// A branch of a subplan's tree: its action, and the place of the subplan that it leads to, none
/// where it finishes.
pub type Branch = (u8, Option<usize>);

/// Begins a walk. "A fresh walk has one mark, at the plan's last word, and no finish reached."
pub fn fresh_walk(
    tables: &[u8],
    plan: &[u8],
    marks: &mut [u8],
    finished: &mut bool,
) -> Result<(), Refusal> {
    judge_progress(tables, plan, marks)?;
    marks.fill(0);
    marks[plan.len() - 1] = 1;
    *finished = false;
    Ok(())
}

/// Takes a message. The progress afterwards is "the set of all subplans that the messages so far
/// can have led to, as one mark byte for each word, and whether exactly those messages can end in
/// a finish"; "a mark is written as 1". "A refused message changes nothing."
pub fn walk(
    tables: &[u8],
    plan: &[u8],
    marks: &mut [u8],
    message: u8,
    finished: &mut bool,
) -> Result<(), Refusal> {
    judge_progress(tables, plan, marks)?;
    judge_message(tables, message)?;
    let mut taken = branches(plan, marks);
    taken.retain(|&(action, _)| action == message);
    // "a message that no path goes on with gets 72".
    if taken.is_empty() {
        return Err(Refusal::nowhere(72));
    }
    marks.fill(0);
    *finished = false;
    for (_, leads_to) in taken {
        match leads_to {
            None => *finished = true,
            Some(place) => marks[place] = 1,
        }
    }
    Ok(())
}

/// "A plan that isn't basic, or marks of another length than the plan, get 70 straight after 1 to
/// 14".
fn judge_progress(tables: &[u8], plan: &[u8], marks: &[u8]) -> Result<(), Refusal> {
    judge(tables, plan)?;
    if is_basic(plan) && marks.len() == plan.len() {
        Ok(())
    } else {
        Err(Refusal::nowhere(70))
    }
}

/// "an action outside 1 to n gets 71".
fn judge_message(tables: &[u8], message: u8) -> Result<(), Refusal> {
    if outside(tables, message) {
        Err(Refusal::nowhere(71))
    } else {
        Ok(())
    }
}

/// The branches of all marked subplans of a basic plan. "Any byte but zero reads as a mark", and
/// "any set of marks is a progress": a mark stands for the subplan at its place, wherever that
/// is.
pub fn branches(plan: &[u8], marks: &[u8]) -> BTreeSet<Branch> {
    let subplans = subplans(plan);
    let mut found = BTreeSet::new();
    let mut waiting: Vec<usize> = (0..plan.len()).filter(|&place| marks[place] != 0).collect();
    // A subplan within several marked ones is gone through once.
    let mut met = vec![false; plan.len()];
    while let Some(place) = waiting.pop() {
        if replace(&mut met[place], true) {
            continue;
        }
        match subplans[place] {
            Subplan::Action(DEAD_STOP) => {}
            Subplan::Action(a) => drop(found.insert((a, None))),
            Subplan::Product(a, x) => drop(found.insert((a, Some(x)))),
            Subplan::Sum(x, y) => waiting.extend([x, y]),
        }
    }
    found
}

/// What a basic plan has at a place.
#[derive(Clone, Copy)]
enum Subplan {
    /// "δ has no branches; another action has one, finishing."
    Action(u8),
    /// An action, and the place of the plan that follows it: "each branch of x, a finish becoming
    /// y".
    Product(u8, usize),
    /// The places of both summands: "x+y has those of both."
    Sum(usize, usize),
}

/// The subplan at each place of a basic plan: "The place of a subplan is the index, from 0, of
/// its last word."
fn subplans(plan: &[u8]) -> Vec<Subplan> {
    let mut waiting: Vec<usize> = Vec::new();
    let mut found = Vec::with_capacity(plan.len());
    for (place, &word) in plan.iter().enumerate() {
        let mut operand = || waiting.pop().expect("an accepted plan has the operands");
        found.push(match word {
            CHOICE => {
                let y = operand();
                Subplan::Sum(operand(), y)
            }
            PRODUCT => {
                let y = operand();
                Subplan::Product(plan[operand()], y)
            }
            action => Subplan::Action(action),
        });
        waiting.push(place);
    }
    found
}
