//! What the benchmarks are made of: an unverified version of the library's algorithm, plans to
//! measure with, and Maude as a third to compare with.

#![forbid(unsafe_code)]
#![warn(missing_docs)]

pub mod contenders;
pub mod maude;
pub mod measuring;
pub mod plain;
pub mod workloads;
