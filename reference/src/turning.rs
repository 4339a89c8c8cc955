//! A rewriting turned round: from the plan that it reaches back to the one that it begins with.

use crate::checking::step;
use crate::plans::subplan;
use crate::records::{cut, record_backwards, Record};
use crate::unfolding::record;

/// The rewriting turned round, its last step first; none where it is cut short, or a step does not
/// fit. Where it is accepted, with areas of any length, so is the rewriting turned round, with the
/// same areas, and with the start plan and the claimed one exchanged. Tables, start plan and
/// carried left sides are accepted ones.
pub fn turned_round(tables: &[u8], start: &[u8], rewriting: &[u8]) -> Option<Vec<u8>> {
    let mut plan = start.to_vec();
    let mut backwards = Vec::new();
    for record in cut(rewriting)? {
        let next = step(tables, &plan, &record)?;
        backwards.push(turned(&plan, &record, next.len())?);
        plan = next;
    }
    backwards.reverse();
    Some(backwards.concat())
}

/// The record of the step back from the next plan, which has so many words. The subplan put in ends
/// as far before the plan's end as the one that it replaced.
pub fn turned(plan: &[u8], made: &Record, next_words: usize) -> Option<Vec<u8>> {
    let law = made.law()?;
    let place = made.place + next_words - plan.len();
    Some(match made.left {
        None => record_backwards(law, place, subplan(plan, made.place)),
        Some(_) => record(law, place).to_vec(),
    })
}
