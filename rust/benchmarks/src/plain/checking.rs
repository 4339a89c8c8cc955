//! The checker: a rewriting replayed on a gap buffer, which moves to each step's place.

use super::carried::Carried;
use super::gap::Gap;
use super::steps::{judge_records, Steps};
use super::word_laws::{fit, right};
use reference::checking::Answer;
use reference::plans::{judge, judge_plan};
use reference::runs::room;
use reference::Refusal;

/// Checks a rewriting; answers and lent bytes are those of the library.
pub fn check_rewriting(
    tables: &[u8],
    start: &[u8],
    claimed: &[u8],
    rewriting: &[u8],
    a: &mut [u8],
    b: &mut [u8],
) -> Answer {
    let room = room(a, b);
    if let Err(refusal) = judge_handed_in(tables, start, claimed, rewriting, room) {
        return Answer::Refused(refusal);
    }
    let mut gap = Gap::load(start);
    let number = match replay(tables, &mut gap, rewriting, room) {
        0 if !gap.holds(claimed) => 33,
        number => number,
    };
    gap.store([a, b]);
    Answer::ended(number, gap.steps(), gap.size())
}

/// Judges what is handed in, in the library's order. The reference's own code for this sets up a
/// list of the records; here nothing is allocated.
fn judge_handed_in(
    tables: &[u8],
    start: &[u8],
    claimed: &[u8],
    rewriting: &[u8],
    room: usize,
) -> Result<(), Refusal> {
    judge(tables, start)?;
    if judge_plan(tables, claimed).is_err() {
        return Err(Refusal::nowhere(18));
    }
    if start.len() > room {
        return Err(Refusal::nowhere(15));
    }
    judge_records(tables, rewriting)
}

/// Makes all steps (0), or ends in 31 or 32.
fn replay(tables: &[u8], gap: &mut Gap, rewriting: &[u8], room: usize) -> u8 {
    let mut carried = Carried::new();
    for step in Steps::of(rewriting) {
        if step.place >= gap.size() {
            return 31;
        }
        gap.seek(step.place);
        let law = step.law();
        let put = match step.left {
            None => {
                let Some(letters) = fit(law, tables, gap.words()) else {
                    return 31;
                };
                gap.replace(right(law, tables, letters), room)
            }
            Some(left) => {
                if !carried.gives(law, tables, left, gap.subplan()) {
                    return 31;
                }
                gap.replace_by(left, room)
            }
        };
        if !put {
            return 32;
        }
    }
    0
}
