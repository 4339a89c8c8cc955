//! What the calls answer, in a form that all implementations share.

use reference::plans::Counts;
use reference::precedence::Precedence;
use reference::{checking, unfolding, Refusal};

/// What a call answers: every number that it sets.
#[derive(Clone, Copy, Debug, PartialEq, Eq)]
pub struct Answer {
    /// 0, or the number of the refusal or of the ending; of a call that hands bytes over, 0,
    /// or 1 where the area is too short.
    pub number: u8,
    /// Steps and size; or orders and stuck paths; or 1 for yes and 0 for no, and the place under
    /// no; or the one number asked for, then 0; 0 where refused.
    pub values: [usize; 2],
    /// The printed place; 0 where none is named.
    pub place: usize,
    /// Of an unfolding with a check: whether the check was made, and its number, steps, size
    /// and place; 0 where none was made, and in every other call.
    pub own: [usize; 5],
}

impl Answer {
    /// A refusal, which leaves the other numbers at 0.
    pub(crate) fn refused(refusal: Refusal) -> Answer {
        Answer {
            number: refusal.number,
            values: [0, 0],
            place: refusal.printed(),
            own: [0; 5],
        }
    }

    /// An answer without a place.
    pub fn ended(number: u8, values: [usize; 2]) -> Answer {
        Answer {
            number,
            values,
            place: 0,
            own: [0; 5],
        }
    }

    /// Bytes handed over, or an area that is too short.
    pub(crate) fn handed(size: Option<usize>) -> Answer {
        match size {
            Some(size) => Answer::ended(0, [size, 0]),
            None => Answer::ended(1, [0, 0]),
        }
    }

    /// An unfolding's answer, with that of the check where one was made.
    pub(crate) fn with_own(self, own: Option<Answer>) -> Answer {
        let own = match own {
            Some(check) => {
                let [steps, size] = check.values;
                [1, check.number as usize, steps, size, check.place]
            }
            None => [0; 5],
        };
        Answer { own, ..self }
    }

    /// One number, or a refusal.
    pub fn counted(result: Result<usize, Refusal>) -> Answer {
        match result {
            Ok(value) => Answer::ended(0, [value, 0]),
            Err(refusal) => Answer::refused(refusal),
        }
    }

    /// Orders and stuck paths, or a refusal.
    pub fn paths(result: Result<Counts, Refusal>) -> Answer {
        match result {
            Ok(Counts { orders, stuck }) => Answer::ended(0, [orders, stuck]),
            Err(refusal) => Answer::refused(refusal),
        }
    }

    /// Yes, or no and a place; or a refusal.
    pub fn precedence(result: Result<Precedence, Refusal>) -> Answer {
        match result {
            Ok(Precedence::Yes) => Answer::ended(0, [1, 0]),
            Ok(Precedence::No { at }) => Answer::ended(0, [0, at]),
            Err(refusal) => Answer::refused(refusal),
        }
    }

    /// The answer of a call that takes the finish of a walk as yes or no. The number of the finish
    /// is 1 or 0 afterwards; under a refusal it is kept, unless the call changed what it says.
    pub fn walked(
        finish: &mut usize,
        call: impl FnOnce(&mut bool) -> Result<(), Refusal>,
    ) -> Answer {
        let held = *finish != 0;
        let mut finished = held;
        let result = call(&mut finished);
        if result.is_ok() || finished != held {
            *finish = usize::from(finished);
        }
        Answer::counted(result.map(|()| 0))
    }
}

impl From<unfolding::Answer> for Answer {
    fn from(answer: unfolding::Answer) -> Answer {
        match answer {
            unfolding::Answer::Refused(refusal) => Answer::refused(refusal),
            unfolding::Answer::Ended {
                number,
                steps,
                size,
            } => Answer::ended(number, [steps, size]),
        }
    }
}

impl From<checking::Answer> for Answer {
    fn from(answer: checking::Answer) -> Answer {
        match answer {
            checking::Answer::Refused(refusal) => Answer::refused(refusal),
            checking::Answer::Accepted { steps, size } => Answer::ended(0, [steps, size]),
            checking::Answer::Back {
                number,
                steps,
                size,
            } => Answer::ended(number, [steps, size]),
        }
    }
}

#[cfg(feature = "archive")]
impl From<aberulwy::raw::Judged> for Answer {
    fn from(judged: aberulwy::raw::Judged) -> Answer {
        Answer {
            number: judged.number,
            values: [0, 0],
            place: judged.place,
            own: [0; 5],
        }
    }
}

#[cfg(feature = "archive")]
impl From<aberulwy::raw::Counted> for Answer {
    fn from(counted: aberulwy::raw::Counted) -> Answer {
        Answer {
            number: counted.number,
            values: [counted.value, 0],
            place: counted.place,
            own: [0; 5],
        }
    }
}

#[cfg(feature = "archive")]
impl From<aberulwy::raw::CountedPaths> for Answer {
    fn from(paths: aberulwy::raw::CountedPaths) -> Answer {
        Answer {
            number: paths.number,
            values: [paths.orders, paths.stuck],
            place: paths.place,
            own: [0; 5],
        }
    }
}

#[cfg(feature = "archive")]
impl From<aberulwy::raw::Preceded> for Answer {
    fn from(preceded: aberulwy::raw::Preceded) -> Answer {
        Answer {
            number: preceded.number,
            values: [preceded.yes, preceded.at],
            place: preceded.place,
            own: [0; 5],
        }
    }
}

#[cfg(feature = "archive")]
impl From<aberulwy::raw::Ended> for Answer {
    fn from(ended: aberulwy::raw::Ended) -> Answer {
        Answer {
            number: ended.number,
            values: [ended.steps, ended.size],
            place: ended.place,
            own: [0; 5],
        }
    }
}

#[cfg(feature = "archive")]
impl From<aberulwy::raw::EndedChecked> for Answer {
    fn from(both: aberulwy::raw::EndedChecked) -> Answer {
        Answer {
            own: [
                both.checked,
                both.own_number,
                both.own_steps,
                both.own_size,
                both.own_place,
            ],
            ..both.unfolded.into()
        }
    }
}

#[cfg(feature = "archive")]
impl From<aberulwy::raw::Handed> for Answer {
    fn from(handed: aberulwy::raw::Handed) -> Answer {
        Answer::ended(handed.number, [handed.size, 0])
    }
}
