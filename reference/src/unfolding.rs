//! Unfolding: laws 5 to 32, always at the least place, until the plan is basic.

use crate::laws::{apply, next_step};
use crate::plans::judge;
use crate::refusals::Refusal;
use crate::runs::{room, set, Run};

/// The bytes of one record: "A step is recorded in three bytes: law, then place, low
/// byte first."
pub const RECORD: usize = 3;

/// What the unfolding answers.
#[derive(Clone, Copy, Debug, PartialEq, Eq)]
pub enum Answer {
    /// Turned back by what was handed in; areas and list keep their bytes.
    Refused(Refusal),
    /// It came to an end: finished (0), or 34, 35, 36.
    Ended {
        /// 0, 34, 35 or 36.
        number: u8,
        /// The steps made.
        steps: usize,
        /// The words of the plan reached.
        size: usize,
    },
}

impl Answer {
    /// The number of the refusal or of the ending.
    pub fn number(&self) -> u8 {
        match self {
            Answer::Refused(refusal) => refusal.number,
            Answer::Ended { number, .. } => *number,
        }
    }
}

/// Unfolds a plan: "Given tables, plan, allowance (0 to 4,294,967,295), a list for the
/// rewriting, areas A and B."
pub fn unfold(
    tables: &[u8],
    plan: &[u8],
    allowance: u32,
    list: &mut [u8],
    a: &mut [u8],
    b: &mut [u8],
) -> Answer {
    let room = room(a, b);
    if let Err(refusal) = judge_handed_in(tables, plan, room) {
        return Answer::Refused(refusal);
    }
    let limits = Limits {
        allowance: allowance as usize,
        list: list.len(),
        room,
    };
    let (number, run, records) = unfold_within(tables, plan, &limits);
    run.leave_in(a, b);
    set(list, &records);
    Answer::Ended {
        number,
        steps: run.steps,
        size: run.plan.len(),
    }
}

/// "judges the tables (1 to 8), then the plan (11 to 14), before its other refusals";
/// "15 plan longer than C".
pub fn judge_handed_in(tables: &[u8], plan: &[u8], room: usize) -> Result<(), Refusal> {
    judge(tables, plan)?;
    if plan.len() > room {
        return Err(Refusal::nowhere(15));
    }
    Ok(())
}

/// What ends an unfolding before it has finished.
struct Limits {
    allowance: usize,
    list: usize,
    room: usize,
}

/// "Before each step: if no such law fits, finished; else 34, 35, 36 below in order."
/// Answers the number, the run and the records.
fn unfold_within(tables: &[u8], plan: &[u8], limits: &Limits) -> (u8, Run, Vec<u8>) {
    let mut run = Run::begin(plan);
    let mut records = Vec::new();
    while let Some((law, place)) = next_step(tables, &run.plan) {
        // "34 steps made equal the allowance."
        if run.steps == limits.allowance {
            return (34, run, records);
        }
        // "35 the list can't take three bytes more."
        if limits.list - records.len() < RECORD {
            return (35, run, records);
        }
        let next = apply(tables, &run.plan, law, place).expect("the law fits");
        // "36 next plan longer than C."
        if next.len() > limits.room {
            return (36, run, records);
        }
        run = run.advance(next);
        records.extend(record(law, place));
    }
    (0, run, records)
}

/// "A step is recorded in three bytes: law, then place, low byte first."
pub fn record(law: u8, place: usize) -> [u8; RECORD] {
    [law, (place % 256) as u8, (place / 256) as u8]
}
