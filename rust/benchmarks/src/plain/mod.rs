//! The library's algorithm in plain Rust, without proofs; for precedence another one. Nothing is
//! allocated.
//!
//! The unfolding works on a graph of terms alone, the checker on a gap buffer alone. Each file
//! uses only files before it in its row, and those of the first row:
//!
//! - the unfolding and the checker: `areas`
//! - the checker: `words`, `word_laws`, `gap`, `carried`, `steps`, `checking`
//! - the unfolding: `records`, `graph`, `graph_laws`, `graph_steps`, `unfolding`
//! - the reader of texts, which uses none of them: `texts`
//! - what the walks, the counting, the precedence and the forms share, which uses none of them:
//!   `basic`
//! - the walks: `walks`
//! - the counting: `counting`
//! - the precedence, in one pass where the library takes two: `precedence`
//! - the fixed forms, with Rust's own sort where the library merges runs: `forms`
//! - the writer and the reader of station files, which use none of them: `stations`

mod areas;
mod basic;
mod carried;
mod checking;
mod counting;
mod forms;
mod gap;
mod graph;
mod graph_laws;
mod graph_steps;
mod precedence;
mod records;
mod stations;
mod steps;
mod texts;
mod unfolding;
mod walks;
mod word_laws;
mod words;

pub use basic::is_basic;
pub use checking::check_rewriting;
pub use counting::count_orders;
pub use forms::fix_form;
pub use precedence::precedes;
pub use stations::{read_station, write_station};
pub use texts::read_text;
pub use unfolding::unfold;
pub use walks::{fresh_walk, walk};
