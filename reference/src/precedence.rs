//! Precedence: whether one action comes before another on every path of a basic plan.
//!
//! ```
//! use reference::precedence::{precedes, Precedence};
//! use reference::tables::trial_tables;
//! use reference::Refusal;
//!
//! let tables = trial_tables();
//! // 1·(2 + 3·2): no 2 overtakes 1. In 1·2 + 3·2 the second one does.
//! let answer = precedes(&tables, &[1, 2, 3, 2, 65, 64, 65], 1, 2);
//! assert_eq!(answer, Ok(Precedence::Yes));
//! let answer = precedes(&tables, &[1, 2, 65, 3, 2, 65, 64], 1, 2);
//! assert_eq!(answer, Ok(Precedence::No { at: 4 }));
//! let answer = precedes(&tables, &[1, 2, 65], 2, 2);
//! assert_eq!(answer, Err(Refusal::nowhere(73)));
//! ```
//!
//! To each word of a basic plan one path leads, so the actions before the word are told from the
//! last word down: a sum hands on to both of its summands what is before itself, and a product
//! hands on its first factor too.

use crate::plans::{is_basic, judge, starts, CHOICE, PRODUCT};
use crate::refusals::Refusal;
use crate::tables::{outside, MOST_ACTIONS};

/// "say whether on every path each appearance of the second has the first somewhere before it".
#[derive(Clone, Copy, Debug, PartialEq, Eq)]
pub enum Precedence {
    /// "The answer is yes exactly if no such path exists."
    Yes,
    /// "If not, give the place of an appearance that has none before it on its path".
    No {
        /// "the least such place": an index, from 0, of a word.
        at: usize,
    },
}

/// "Given two actions and a basic plan, say whether on every path each appearance of the second
/// has the first somewhere before it." "A plan that isn't basic still gets 70."
pub fn precedes(tables: &[u8], plan: &[u8], first: u8, second: u8) -> Result<Precedence, Refusal> {
    judge(tables, plan)?;
    judge_actions(tables, first, second)?;
    if !is_basic(plan) {
        return Err(Refusal::nowhere(70));
    }
    let before = actions_before(plan);
    let has_none = |&place: &usize| plan[place] == second && !before[place][first as usize];
    Ok(match (0..plan.len()).find(has_none) {
        None => Precedence::Yes,
        Some(at) => Precedence::No { at },
    })
}

/// "Equal actions, or one outside 1 to n, get 73, checked before 70."
fn judge_actions(tables: &[u8], first: u8, second: u8) -> Result<(), Refusal> {
    if first == second || outside(tables, first) || outside(tables, second) {
        Err(Refusal::nowhere(73))
    } else {
        Ok(())
    }
}

/// Which actions stand before a word on its path, by their numbers.
type Before = [bool; MOST_ACTIONS as usize + 1];

/// For each word of a basic plan, which actions stand before it on its path. Before the plan as a
/// whole, which is its last word, there are none.
fn actions_before(plan: &[u8]) -> Vec<Before> {
    let starts = starts(plan);
    let mut before = vec![Before::default(); plan.len()];
    for place in (0..plan.len()).rev() {
        let here = before[place];
        match plan[place] {
            // "x+y has those of both."
            CHOICE => {
                let y = place - 1;
                let x = starts[y] - 1;
                (before[x], before[y]) = (here, here);
            }
            // "each branch of x, a finish becoming y", where x is one action.
            PRODUCT => {
                let (x, y) = (starts[place], place - 1);
                (before[x], before[y]) = (here, here);
                before[y][plan[x] as usize] = true;
            }
            _ => {}
        }
    }
    before
}
