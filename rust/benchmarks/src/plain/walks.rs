//! Walks. A first pass over a plan's words tells whether it is basic, a second where its subplans
//! start, and a third, from the last word to the first, what a message leads to.

use super::basic::is_basic;
use reference::plans::{operands, CHOICE, LONGEST_PLAN, PRODUCT};
use reference::tables::outside;
use reference::Refusal;

/// Begins a walk; the answer, the marks and the finish are those of the library.
pub fn fresh_walk(
    tables: &[u8],
    plan: &[u8],
    marks: &mut [u8],
    finished: &mut bool,
) -> Result<(), Refusal> {
    judge_walk(tables, plan, marks)?;
    marks.fill(0);
    marks[plan.len() - 1] = 1;
    *finished = false;
    Ok(())
}

/// Brings a message to a walk; the answer, the marks and the finish are those of the library.
pub fn walk(
    tables: &[u8],
    plan: &[u8],
    marks: &mut [u8],
    message: u8,
    finished: &mut bool,
) -> Result<(), Refusal> {
    judge_walk(tables, plan, marks)?;
    if outside(tables, message) {
        return Err(Refusal::nowhere(71));
    }
    let mut starts = [0; LONGEST_PLAN];
    find_starts(plan, &mut starts);
    let (mut now, mut next) = ([0; LONGEST_PLAN], [0; LONGEST_PLAN]);
    now[..plan.len()].copy_from_slice(marks);
    let finishes = pass(plan, &starts, message, &mut now, &mut next);
    let next = &next[..plan.len()];
    if !finishes && next.iter().all(|&mark| mark == 0) {
        return Err(Refusal::nowhere(72));
    }
    marks.copy_from_slice(next);
    *finished = finishes;
    Ok(())
}

/// Tables, plan, whether it is basic, and the length of the marks.
fn judge_walk(tables: &[u8], plan: &[u8], marks: &[u8]) -> Result<(), Refusal> {
    if is_basic(tables, plan)? && marks.len() == plan.len() {
        Ok(())
    } else {
        Err(Refusal::nowhere(70))
    }
}

/// Where the subplan starts whose last word each word of a basic plan is.
fn find_starts(plan: &[u8], starts: &mut [u16]) {
    for (place, &word) in plan.iter().enumerate() {
        starts[place] = match operands(word) {
            0 => place as u16,
            _ => starts[usize::from(starts[place - 1]) - 1],
        };
    }
}

/// What a message leads to from the marked subplans of a basic plan: the marks of `next`, and
/// whether it finishes.
fn pass(plan: &[u8], starts: &[u16], message: u8, now: &mut [u8], next: &mut [u8]) -> bool {
    let mut finishes = false;
    for (place, &word) in plan.iter().enumerate().rev() {
        if now[place] == 0 {
            continue;
        }
        // The last word of the first operand of a sign.
        let first = || usize::from(starts[place - 1]) - 1;
        match word {
            CHOICE => {
                now[place - 1] = 1;
                now[first()] = 1;
            }
            PRODUCT => {
                if plan[first()] == message {
                    next[place - 1] = 1;
                }
            }
            action => finishes |= action == message,
        }
    }
    finishes
}
