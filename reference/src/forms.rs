//! The fixed form of a basic plan: one for all basic plans of the same tree.
//!
//! ```
//! use reference::forms::fix_form;
//! use reference::tables::trial_tables;
//! use reference::Refusal;
//!
//! let (tables, mut area) = (trial_tables(), [9; 8]);
//! // 2 + (1·(3 + 2) + 2): its form is 1·(2 + 3) + 2.
//! let plan = [2, 1, 3, 2, 64, 65, 2, 64, 64];
//! let short = fix_form(&tables, &plan, &mut area[..6]);
//! assert_eq!((short, area), (Err(Refusal::nowhere(74)), [9; 8]));
//! assert_eq!(fix_form(&tables, &plan, &mut area), Ok(7));
//! assert_eq!(area, [1, 2, 3, 64, 65, 2, 64, 0]);
//! // So is that of (1·(2 + 3) + 2) + 1·(3 + 2).
//! let (other, mut exact) = ([1, 2, 3, 64, 65, 2, 64, 1, 3, 2, 64, 65, 64], [9; 7]);
//! assert_eq!(fix_form(&tables, &other, &mut exact), Ok(7));
//! assert_eq!(exact, area[..7]);
//! let refusal = fix_form(&tables, &[1, 2, 66], &mut area);
//! assert_eq!(refusal, Err(Refusal::nowhere(70)));
//! ```
//!
//! The form is made from the operands up. Each subplan is held as the set of its summands in form,
//! so a remainder is in form before the product that it stands in is a summand.

use crate::plans::{is_basic, judge, CHOICE, PRODUCT};
use crate::refusals::Refusal;
use crate::runs::set;
use crate::tables::DEAD_STOP;
use std::collections::BTreeSet;

/// Brings a basic plan to its fixed form in an area, and answers the form's length. (Request 107.)
pub fn fix_form(tables: &[u8], plan: &[u8], area: &mut [u8]) -> Result<usize, Refusal> {
    judge(tables, plan)?;
    // "A plan that isn't basic gets 70."
    if !is_basic(plan) {
        return Err(Refusal::nowhere(70));
    }
    let form = form(plan);
    // "After that an area shorter than the form gets 74 and keeps its bytes".
    if area.len() < form.len() {
        return Err(Refusal::nowhere(74));
    }
    // "a longer one is zero past the form."
    set(area, &form);
    Ok(form.len())
}

/// The summands of a basic plan, none for dead stop: words of an action, or of a product whose
/// remainder is in form. A set has "equal summands … reduced to one", and hands them out "in
/// ascending order of their bytes, a shorter one first where it begins the longer", which is how
/// lists of bytes compare.
type Summands = BTreeSet<Vec<u8>>;

/// The fixed form of a basic plan.
pub fn form(plan: &[u8]) -> Vec<u8> {
    let mut waiting: Vec<Summands> = Vec::new();
    for &word in plan {
        let mut operand = || waiting.pop().expect("an accepted plan has the operands");
        let summands = match word {
            DEAD_STOP => Summands::new(),
            CHOICE => {
                let (y, x) = (operand(), operand());
                of_both(x, y)
            }
            // "Remainders are brought to it first".
            PRODUCT => {
                let (x, a) = (operand(), operand());
                Summands::from([[sum(a), sum(x), vec![PRODUCT]].concat()])
            }
            action => Summands::from([vec![action]]),
        };
        waiting.push(summands);
    }
    sum(waiting.pop().expect("an accepted plan is not empty"))
}

/// The summands of x + y: those of x and those of y. The fewer are put to the others, as a long
/// sum would else take long.
fn of_both(x: Summands, y: Summands) -> Summands {
    let (few, mut many) = if x.len() < y.len() { (x, y) } else { (y, x) };
    many.extend(few);
    many
}

/// The sum of the summands in their order: "sums group to the left". Without a summand it is dead
/// stop.
fn sum(summands: Summands) -> Vec<u8> {
    let mut sum = Vec::new();
    for summand in summands {
        let first = sum.is_empty();
        sum.extend(summand);
        if !first {
            sum.push(CHOICE);
        }
    }
    if sum.is_empty() {
        sum.push(DEAD_STOP);
    }
    sum
}
