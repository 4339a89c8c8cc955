//! The unfolding: steps on a graph of terms until all is read (0) or a step cannot be made (34, 35
//! or 36). When the nodes run out, the plan is written out and loaded again. After a loading fewer
//! entries are read than there are nodes, so a step always comes before they run out.

use super::areas::{leave_in, Cut};
use super::graph_steps::{Reading, Work};
use super::records::Records;
use reference::plans::LONGEST_PLAN;
use reference::runs::room;
use reference::unfolding::{judge_handed_in, Answer};

/// Areas of at most so many words take a graph of few nodes.
const FEW_WORDS: usize = 2048;
/// The length of the arrays of nodes then, and in other areas.
const FEW_NODES: usize = 4096;
const MOST_NODES: usize = 32768;

/// Unfolds a plan; answers and lent bytes are those of the library.
pub fn unfold(
    tables: &[u8],
    plan: &[u8],
    allowance: u32,
    list: &mut [u8],
    a: &mut [u8],
    b: &mut [u8],
) -> Answer {
    let room = room(a, b);
    if let Err(refusal) = judge_handed_in(tables, plan, room) {
        return Answer::Refused(refusal);
    }
    let mut records = Records::new(list, allowance as usize);
    let mut out = Out::new(plan);
    let number = match room {
        ..=FEW_WORDS => run::<FEW_NODES>(tables, &mut out, &mut records, room),
        _ => run::<MOST_NODES>(tables, &mut out, &mut records, room),
    };
    records.close();
    let (steps, plan) = (records.steps(), out.plan());
    leave_in([a, b], steps, [plan, &[]], out.cut, &out.old);
    Answer::Ended {
        number,
        steps,
        size: plan.len(),
    }
}

/// A plan written out, with what the last step changed.
struct Out {
    words: [u8; LONGEST_PLAN],
    size: usize,
    cut: Cut,
    /// The words that the last step took away, in front.
    old: [u8; LONGEST_PLAN],
}

impl Out {
    /// A plan without a step.
    fn new(plan: &[u8]) -> Out {
        let mut words = [0; LONGEST_PLAN];
        words[..plan.len()].copy_from_slice(plan);
        Out {
            words,
            size: plan.len(),
            cut: Cut::default(),
            old: [0; LONGEST_PLAN],
        }
    }

    fn plan(&self) -> &[u8] {
        &self.words[..self.size]
    }

    /// Takes the plan over that the work has come to.
    fn take<const LENGTH: usize>(&mut self, work: &mut Work<LENGTH>) {
        self.size = work.size();
        work.write_plan(&mut self.words[..self.size]);
        if let Some(cut) = work.write_redex(&mut self.old) {
            self.cut = cut;
        }
    }
}

/// Unfolds the plan that is written out, and writes the plan reached out; how it ends.
fn run<const LENGTH: usize>(
    tables: &[u8],
    out: &mut Out,
    records: &mut Records,
    room: usize,
) -> u8 {
    let mut work = Work::<LENGTH>::empty();
    loop {
        if let Some(number) = load_and_walk(tables, &mut work, out, records, room) {
            return number;
        }
    }
}

/// Loads the plan that is written out, reads and makes steps as long as there are nodes, and writes
/// the plan out again; how the unfolding ends, if it does there.
fn load_and_walk<const LENGTH: usize>(
    tables: &[u8],
    work: &mut Work<LENGTH>,
    out: &mut Out,
    records: &mut Records,
    room: usize,
) -> Option<u8> {
    work.load(out.plan());
    let ended = walk(tables, work, records, room);
    out.take(work);
    ended
}

/// Reads and makes steps until all is read, or a step cannot be made; none where no node is left.
fn walk<const LENGTH: usize>(
    tables: &[u8],
    work: &mut Work<LENGTH>,
    records: &mut Records,
    room: usize,
) -> Option<u8> {
    while !work.all_read() {
        match work.advance(tables, records, room) {
            Reading::On => {}
            Reading::Step { law, place } => records.put(law, place),
            Reading::Stopped(number) => return Some(number),
            Reading::NoNode => return None,
        }
    }
    Some(0)
}

#[cfg(test)]
mod tests {
    use super::*;
    use crate::workloads::{stopped_merges, Unfolding, STOPPED_CHAINS};
    use reference::unfolding::RECORD;
    use std::iter;

    /// How often an unfolding loads a plan.
    fn loadings(unfolding: &Unfolding) -> usize {
        let mut list = vec![0; RECORD * unfolding.steps];
        let mut records = Records::new(&mut list, usize::MAX);
        let mut out = Out::new(&unfolding.plan);
        let mut work = Work::<MOST_NODES>::empty();
        let mut once = || {
            load_and_walk(
                &unfolding.tables,
                &mut work,
                &mut out,
                &mut records,
                LONGEST_PLAN,
            )
        };
        1 + iter::from_fn(|| once().is_none().then_some(())).count()
    }

    #[test]
    fn loadings_follow_one_another() {
        let unfoldings = STOPPED_CHAINS.map(stopped_merges);
        assert_eq!(unfoldings.each_ref().map(loadings), [2, 4]);
    }
}
