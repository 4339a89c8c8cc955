//! The list for the rewriting, and what ends an unfolding before it has finished.

use reference::unfolding::{record, RECORD};

/// The list with the steps recorded so far.
pub struct Records<'l> {
    list: &'l mut [u8],
    steps: usize,
    allowance: usize,
}

impl Records<'_> {
    /// A list without a record.
    pub fn new(list: &mut [u8], allowance: usize) -> Records<'_> {
        Records {
            list,
            steps: 0,
            allowance,
        }
    }

    /// How many steps are recorded.
    pub fn steps(&self) -> usize {
        self.steps
    }

    /// Why no step can be recorded: 34, or 35.
    pub fn full(&self) -> Option<u8> {
        if self.steps == self.allowance {
            return Some(34);
        }
        (self.list.len() - RECORD * self.steps < RECORD).then_some(35)
    }

    /// Records a step.
    pub fn put(&mut self, law: u8, place: usize) {
        let at = RECORD * self.steps;
        self.list[at..at + RECORD].copy_from_slice(&record(law, place));
        self.steps += 1;
    }

    /// Fills the rest of the list with zeros.
    pub fn close(&mut self) {
        self.list[RECORD * self.steps..].fill(0);
    }
}
