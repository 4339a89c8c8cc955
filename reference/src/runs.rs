//! What unfolding and checking share: the plan reached, the plan one step before it,
//! and how both are left in the areas.

use crate::plans::LONGEST_PLAN;

/// "C is the least of both areas' lengths and 16,384."
pub fn room(a: &[u8], b: &[u8]) -> usize {
    a.len().min(b.len()).min(LONGEST_PLAN)
}

/// How far a rewriting has come.
#[derive(Clone, Debug)]
pub struct Run {
    /// The plan reached.
    pub plan: Vec<u8>,
    /// The plan one step before; empty if no step was made.
    pub before: Vec<u8>,
    /// The steps made.
    pub steps: usize,
}

impl Run {
    /// A run without a step.
    pub fn begin(plan: &[u8]) -> Run {
        Run {
            plan: plan.to_vec(),
            before: Vec::new(),
            steps: 0,
        }
    }

    /// The run after one step more.
    pub fn advance(self, next: Vec<u8>) -> Run {
        Run {
            plan: next,
            before: self.plan,
            steps: self.steps + 1,
        }
    }

    /// "The plan reached is a part of one area or the other: A after an even number of
    /// steps, B after an odd one. The other area holds the plan one step before (zeros
    /// if no step was made)."
    pub fn leave_in(&self, a: &mut [u8], b: &mut [u8]) {
        if self.steps.is_multiple_of(2) {
            set(a, &self.plan);
            set(b, &self.before);
        } else {
            set(b, &self.plan);
            set(a, &self.before);
        }
    }
}

/// "The plan reached is a part of one area or the other: A after an even number of steps, B
/// after an odd one": the first so many words of it, or all of it where it has fewer.
pub fn reached<'t>(a: &'t [u8], b: &'t [u8], steps: usize, size: usize) -> &'t [u8] {
    let area = if steps.is_multiple_of(2) { a } else { b };
    &area[..size.min(area.len())]
}

/// "All bytes past a plan, in either area, and past the records are zero."
pub fn set(area: &mut [u8], content: &[u8]) {
    area.fill(0);
    area[..content.len()].copy_from_slice(content);
}
