//! A second, independent implementation of the station plan unfolder and of
//! the rewriting checker, written from the customer's scope document alone.
//!
//! It is plain and unhurried: every answer, refusal and lent byte is computed
//! by the shortest rendering of the sentence that asks for it, so that another
//! implementation can be compared with it byte for byte. Each item quotes the
//! sentence that it renders. `docs/FORMATS.md` and `docs/NUMBERS.md` tell the
//! bytes and the numbers. [`texts`] was written from request 101 of the customer's
//! change requests, [`walks`] from request 102, the counts of [`plans`] and the program's
//! first line from request 103, [`precedence`] from request 105, [`stations::write_station`] from
//! request 106, [`forms`] from request 107, [`records`] with the steps backwards of [`checking`]
//! from request 108, and [`ending`] from request 109; [`turning`], [`descriptions`], [`reading`] and
//! [`random`] are this folder's own.

#![forbid(unsafe_code)]
#![warn(missing_docs)]

pub mod checking;
pub mod descriptions;
pub mod ending;
pub mod filter;
pub mod forms;
pub mod laws;
pub mod own;
pub mod plans;
pub mod precedence;
pub mod random;
pub mod reading;
pub mod records;
pub mod refusals;
pub mod runs;
pub mod stations;
pub mod tables;
pub mod texts;
pub mod trees;
pub mod turning;
pub mod unfolding;
pub mod walks;

pub use refusals::{Place, Refusal};
