//! A rewriting checked, and then, turned round, checked again from the claimed plan to the start
//! plan.

use crate::cases::{Case, Outcome};
use crate::implementation::Implementation;
use reference::random::cases::{turned_case, CheckCase};
use reference::random::Random;

/// What is handed to the checker, and then, where the rewriting is accepted, turned round by the
/// reference, to the checker once more.
#[derive(Clone, Debug)]
pub struct TurnedCase {
    /// What the first call is handed.
    pub checking: CheckCase,
    /// The second call's area A, with the bytes it has before.
    pub c: Vec<u8>,
    /// The second call's area B, with the bytes it has before.
    pub d: Vec<u8>,
}

impl TurnedCase {
    /// A rewriting turned round, in areas that are mostly as long as the first ones: none where it
    /// is not accepted.
    pub(crate) fn of(random: &mut Random, checking: &CheckCase) -> Option<TurnedCase> {
        let turned = turned_case(checking)?;
        let (words, c, d) = (turned.start.len(), turned.a.len(), turned.b.len());
        let (c, d) = match random.below(4) {
            0 => (random.near(c, &[0, words]), random.near(d, &[0, words])),
            _ => (c, d),
        };
        Some(TurnedCase {
            checking: checking.clone(),
            c: random.lent(c),
            d: random.lent(d),
        })
    }

    /// What the second call is handed: none where the reference does not accept the rewriting.
    pub(crate) fn second(&self) -> Option<CheckCase> {
        let turned = turned_case(&self.checking)?;
        Some(CheckCase {
            a: self.c.clone(),
            b: self.d.clone(),
            ..turned
        })
    }

    /// Checks the rewriting, and what it is turned round. The outcome is that of the second call,
    /// with that of the first before it; or that of the first, where there is no second.
    pub(crate) fn run(&self, implementation: &impl Implementation) -> Outcome {
        let checked = Case::CheckRewriting(self.checking.clone()).run(implementation);
        match self.second() {
            Some(second) => Outcome {
                before: vec![checked],
                ..Case::CheckRewriting(second).run(implementation)
            },
            None => checked,
        }
    }
}
