//! Random cases run through two implementations of the public calls, and compared: the number
//! answered, the place, every other number, and everything lent.
//!
//! An [`Implementation`] is whatever answers every [`Call`]. [`compare()`] runs
//! seeded cases until the first difference, which it makes smaller while it stays.

#![forbid(unsafe_code)]
#![warn(missing_docs)]

mod answers;
mod cases;
mod compare;
mod fixing;
mod implementation;
mod printing;
mod round_trips;
mod shrink;
mod turning;
mod walking;

pub use answers::Answer;
pub use cases::{Case, CheckedCase, ListCase, Outcome, ReachedCase};
pub use compare::{compare, Agreement, Difference};
pub use fixing::{FormOfFormCase, TwoFormsCase};
#[cfg(feature = "archive")]
pub use implementation::Proved;
pub use implementation::{Call, Implementation, Reference};
pub use round_trips::{RereadCase, RewriteCase};
pub use turning::TurnedCase;
