//! Refusals: a number and a place.

/// "The place is a byte's index, a triple of actions or a step's index; 0 where
/// none is named."
#[derive(Clone, Copy, Debug, PartialEq, Eq, Hash)]
pub enum Place {
    /// No place is named.
    Nowhere,
    /// The index of a byte.
    Byte(usize),
    /// A triple of actions.
    Triple(u8, u8, u8),
    /// The index of a step, from 0.
    Step(usize),
}

/// What is answered when something handed in is turned back.
#[derive(Clone, Copy, Debug, PartialEq, Eq, Hash)]
pub struct Refusal {
    /// The refusal's number, as `docs/NUMBERS.md` lists them.
    pub number: u8,
    /// Where it was met.
    pub place: Place,
}

impl Place {
    /// The place as one number: "a triple printed as 1,024a + 32b + c".
    pub fn printed(self) -> usize {
        match self {
            Place::Nowhere => 0,
            Place::Byte(index) | Place::Step(index) => index,
            Place::Triple(a, b, c) => 1024 * a as usize + 32 * b as usize + c as usize,
        }
    }
}

impl Refusal {
    /// A refusal that names no place.
    pub fn nowhere(number: u8) -> Refusal {
        Refusal {
            number,
            place: Place::Nowhere,
        }
    }

    /// A refusal at a byte.
    pub fn at_byte(number: u8, index: usize) -> Refusal {
        Refusal {
            number,
            place: Place::Byte(index),
        }
    }

    /// A refusal at a triple of actions.
    pub fn at_triple(number: u8, (a, b, c): (u8, u8, u8)) -> Refusal {
        Refusal {
            number,
            place: Place::Triple(a, b, c),
        }
    }

    /// A refusal at a step.
    pub fn at_step(number: u8, index: usize) -> Refusal {
        Refusal {
            number,
            place: Place::Step(index),
        }
    }

    /// The place as one number, see [`Place::printed`].
    pub fn printed(self) -> usize {
        self.place.printed()
    }
}
