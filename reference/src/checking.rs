//! Checking: anybody's rewriting, replayed step by step.

use crate::laws::apply;
use crate::plans::{judge, judge_plan, subplan};
use crate::records::{cut, Record};
use crate::refusals::Refusal;
use crate::runs::{room, Run};

/// What the checker answers.
#[derive(Clone, Copy, Debug, PartialEq, Eq)]
pub enum Answer {
    /// "Accepted when every step fits and the last plan equals the claimed one in its
    /// words."
    Accepted {
        /// The steps made.
        steps: usize,
        /// The words of the plan reached.
        size: usize,
    },
    /// Turned back by what was handed in; areas keep their bytes.
    Refused(Refusal),
    /// Turned back by how far it had come: "Areas as after the steps made, which are
    /// reported."
    Back {
        /// 31, 32 or 33.
        number: u8,
        /// The steps made.
        steps: usize,
        /// The words of the plan reached.
        size: usize,
    },
}

impl Answer {
    /// Accepted (0), or turned back by how far it had come (31, 32 or 33).
    pub fn ended(number: u8, steps: usize, size: usize) -> Answer {
        match number {
            0 => Answer::Accepted { steps, size },
            _ => Answer::Back {
                number,
                steps,
                size,
            },
        }
    }

    /// The number of the refusal; 0 if accepted.
    pub fn number(&self) -> u8 {
        match self {
            Answer::Accepted { .. } => 0,
            Answer::Refused(refusal) => refusal.number,
            Answer::Back { number, .. } => *number,
        }
    }
}

/// Checks a rewriting: "Given tables, start plan, claimed end plan, rewriting, areas A
/// and B."
pub fn check_rewriting(
    tables: &[u8],
    start: &[u8],
    claimed: &[u8],
    rewriting: &[u8],
    a: &mut [u8],
    b: &mut [u8],
) -> Answer {
    let room = room(a, b);
    let records = match judge_handed_in(tables, start, claimed, rewriting, room) {
        Ok(records) => records,
        Err(refusal) => return Answer::Refused(refusal),
    };
    let (number, run) = replay(tables, start, claimed, &records, room);
    run.leave_in(a, b);
    Answer::ended(number, run.steps, run.plan.len())
}

/// "Checker, after the start plan: 18 claimed plan would get 11 to 14; then 15 for the
/// start plan only …", then 16, 17 and 75. Answers the records.
pub fn judge_handed_in<'r>(
    tables: &[u8],
    start: &[u8],
    claimed: &[u8],
    rewriting: &'r [u8],
    room: usize,
) -> Result<Vec<Record<'r>>, Refusal> {
    judge(tables, start)?;
    if judge_plan(tables, claimed).is_err() {
        return Err(Refusal::nowhere(18));
    }
    if start.len() > room {
        return Err(Refusal::nowhere(15));
    }
    // "16 now means a last record cut short" (request 108).
    let records = cut(rewriting).ok_or(Refusal::nowhere(16))?;
    judge_records(tables, &records)?;
    Ok(records)
}

/// "17 law 0 or above 32 (first step)": no law's number, nor 128 more than one. "After 17, and
/// before any step, a carried left side that isn't an accepted plan gets 75 (first step)." (Request
/// 108.)
fn judge_records(tables: &[u8], records: &[Record]) -> Result<(), Refusal> {
    let unknown = |record: &Record| record.law().is_none();
    let not_accepted = |left: &[u8]| judge_plan(tables, left).is_err();
    if let Some(step) = records.iter().position(unknown) {
        return Err(Refusal::at_step(17, step));
    }
    let carried = |record: &Record| record.left.is_some_and(not_accepted);
    match records.iter().position(carried) {
        Some(step) => Err(Refusal::at_step(75, step)),
        None => Ok(()),
    }
}

/// "A reader goes through a rewriting … and all 32 laws count." Answers 0, 31, 32 or 33, and how
/// far it came.
fn replay(
    tables: &[u8],
    start: &[u8],
    claimed: &[u8],
    records: &[Record],
    room: usize,
) -> (u8, Run) {
    let mut run = Run::begin(start);
    for record in records {
        // "31 law doesn't fit at that place, or the place is past the end."
        let Some(next) = step(tables, &run.plan, record) else {
            return (31, run);
        };
        // "32 next plan longer than C."
        if next.len() > room {
            return (32, run);
        }
        run = run.advance(next);
    }
    // "33 all steps replayed, end differs from the claimed."
    let number = if run.plan == claimed { 0 } else { 33 };
    (number, run)
}

/// The next plan, where the step fits, whichever way it goes. Tables, plan and carried left side
/// are accepted ones.
pub fn step(tables: &[u8], plan: &[u8], record: &Record) -> Option<Vec<u8>> {
    let law = record.law()?;
    match record.left {
        None => apply(tables, plan, law, record.place),
        Some(left) => step_backwards(tables, plan, law, record.place, left),
    }
}

/// "It fits when that law, applied at the last of those words, gives exactly the subplan at the
/// place. The whole left side then replaces it." (Request 108.)
fn step_backwards(
    tables: &[u8],
    plan: &[u8],
    law: u8,
    place: usize,
    left: &[u8],
) -> Option<Vec<u8>> {
    if place >= plan.len() {
        return None;
    }
    let right = apply(tables, left, law, left.len() - 1)?;
    let replaced = subplan(plan, place);
    let before = &plan[..place + 1 - replaced.len()];
    (right == replaced).then(|| [before, left, &plan[place + 1..]].concat())
}
