//! The calls of a walk, one after the other, with the progress that they leave.

use crate::answers::Answer;
use crate::cases::Outcome;
use crate::implementation::{Call, Implementation};
use reference::random::walks::{FreshWalkCase, MessagesCase, WalkCase};

/// What the number of a finish holds before the first call where one is reached: neither 0 nor 1,
/// so that it shows whether it was written.
const HELD: usize = 7;

/// What the calls of a walk are handed, and the progress between them.
pub(crate) struct Walking<'c> {
    tables: &'c [u8],
    plan: &'c [u8],
    marks: Vec<u8>,
    finish: usize,
}

impl Walking<'_> {
    /// What a walk that is not begun is handed.
    pub(crate) fn before(case: &FreshWalkCase) -> Walking<'_> {
        Walking {
            tables: &case.tables,
            plan: &case.plan,
            marks: case.marks.clone(),
            finish: HELD * usize::from(case.finished),
        }
    }

    /// What a walk on its way is handed.
    pub(crate) fn on_the_way(case: &WalkCase) -> Walking<'_> {
        Walking {
            tables: &case.tables,
            plan: &case.plan,
            marks: case.marks.clone(),
            finish: HELD * usize::from(case.finished),
        }
    }

    /// Begins the walk.
    pub(crate) fn begin(&mut self, implementation: &impl Implementation) -> Outcome {
        let (marks, finish) = (&mut self.marks, &mut self.finish);
        let call = Call::FreshWalk(self.tables, self.plan, marks, finish);
        let answer = implementation.answer(call);
        self.outcome(answer)
    }

    /// Brings a message.
    pub(crate) fn bring(&mut self, implementation: &impl Implementation, message: u8) -> Outcome {
        let (marks, finish) = (&mut self.marks, &mut self.finish);
        let call = Call::Walk(self.tables, self.plan, marks, message, finish);
        let answer = implementation.answer(call);
        self.outcome(answer)
    }

    /// Begins the walk and brings all messages, also those behind a refusal. The outcome is that
    /// of the last, with those before it.
    pub(crate) fn follow(
        &mut self,
        implementation: &impl Implementation,
        case: &MessagesCase,
    ) -> Outcome {
        let (mut last, mut before) = (self.begin(implementation), Vec::new());
        for &message in &case.messages {
            before.push(last);
            last = self.bring(implementation, message);
        }
        Outcome { before, ..last }
    }

    fn outcome(&self, answer: Answer) -> Outcome {
        Outcome {
            answer,
            lent: vec![self.marks.clone()],
            finish: Some(self.finish),
            before: Vec::new(),
        }
    }
}
