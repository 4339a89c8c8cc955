//! Safe calls into Aberulwy, a proved library of process algebra.
//!
//! The library judges *tables* (2,305 bytes: communication, priority, blocked sets) and
//! *plans* (postfix words, one byte each), unfolds a plan to a basic one by laws 5 to 32,
//! records the steps, checks anybody's rewriting by all thirty-two laws, in both directions, reads,
//! writes and lists station files, reads plans typed in signs, walks through a basic plan message by
//! message, says whether one action comes before another on all its paths, and brings a basic plan to
//! a form that all basic plans of its tree share. Every call takes slices of any length; what is
//! malformed is refused with a number and a place, and then nothing lent is changed. The library
//! allocates nothing; [`reversed`], which is this crate's own and turns a rewriting round, does.
//!
//! ```
//! use aberulwy::{unfold, Ending};
//!
//! let tables = aberulwy::examples::trial_tables();
//! // Action 1 merged with action 2.
//! let plan = [1, 2, 66];
//! let (mut list, mut a, mut b) = ([0; 300], [0; 64], [0; 64]);
//! let unfolded = unfold(&tables, &plan, u32::MAX, &mut list, &mut a, &mut b)?;
//! assert_eq!(unfolded.ending, Ending::Finished);
//! // 1·2 + 2·1 + 3: one after the other in either order, or together as action 3.
//! assert_eq!(unfolded.reached(&a, &b), [1, 2, 65, 2, 1, 65, 64, 3, 64]);
//! // Four steps, each a law and the place of the subplan it was used on.
//! let steps: Vec<_> = unfolded.records(&list).collect();
//! assert_eq!(steps, [(11, 2), (12, 2), (12, 5), (10, 9)]);
//! # Ok::<(), aberulwy::Refusal>(())
//! ```
//!
//! # Tables and words
//!
//! Byte 0 of tables is n, the count of actions, 1 to 31; action 0 is dead stop. Byte 1 + 32a + b
//! is what a and b communicate to, byte 1025 + 32a + b is 1 where a is below b (b goes first), and
//! byte 2049 + 32h + a is 1 where set h, 0 to 7, blocks a.
//!
//! The words of a plan: 0 to n are actions; 64 is choice, 65 sequence, 66 merge, 67 left merge,
//! 68 communication merge, 69 unless, each of two operands; 70 is priority and 80 to 87 are
//! encapsulation by set 0 to 7, each of one. Any other byte is no word.
//!
//! A plan may be typed in signs too, as `H0((1 # 2).3)`: [`read_text`] tells the signs, and turns
//! such a text into words.
//!
//! A hub that follows a basic plan keeps its progress as a mark byte for each word, and whether a
//! finish is reached: [`fresh_walk`] begins it, and [`walk`] takes one message after the other.
//! Before any message, [`precedes`] tells whether a photograph can overtake its weight: whether on
//! some path of the plan one action comes with none of another before it.
//!
//! The choices of a plan can be drawn in many orders. [`fix_form`] brings basic plans that do the
//! same to the same words, so that comparing their bytes tells whether two of them do.
//!
//! A rewriting is a list of steps, each naming a law and a place. [`check_rewriting`] accepts one only
//! if both its plans have the same tree; a step may also go from right to left, and then carries the
//! left side. So the list of an unfolding, turned round by [`reversed`], leads from the basic plan
//! back to the plan of the parts.
//!
//! A station file holds tables and a plan: [`write_station`] writes it, and [`read_station`] takes
//! both from it again.
//!
//! The repository's `docs/FORMATS.md` draws tables, plans, texts, rewritings, areas, marks and
//! station files, and `docs/NUMBERS.md` lists the words, the laws, the endings and the refusals.
//!
//! # Stack
//!
//! Allow 640 KiB for [`list_station`], 512 KiB for [`unfold`] and [`unfold_checked`], 256 KiB
//! for [`fix_form`], 192 KiB for [`read_text`], [`check_rewriting`] and [`reversed`], 128 KiB for
//! [`walk`], 96 KiB for [`precedes`], and 64 KiB for each other call; `include/aberulwy.h` has what
//! was measured. The default of a Rust thread (2 MiB) is enough for all of them.
//!
//! # Linking
//!
//! The archive `libaberulwy_c.a` is written by `tools/build` in the repository's root. It is found
//! in `target/staticlib` there, or in the folder that `ABERULWY_ARCHIVE_DIR` names, an absolute
//! path. `examples/unfold_station.rs` is a small program around these calls, and `rust/README.md`
//! says what a program of one's own needs.

#![deny(unsafe_code)]
#![warn(missing_docs)]

mod checking;
pub mod examples;
mod forms;
mod judging;
mod precedence;
pub mod raw;
mod refusals;
mod reversing;
mod stations;
mod texts;
mod unfolding;
mod walks;
mod words;

pub use checking::{check_rewriting, Checked, Verdict};
pub use forms::fix_form;
pub use judging::{count_orders, is_basic, judge_plan, judge_tables, Counts};
pub use precedence::{precedes, Precedence};
pub use refusals::{Place, Refusal};
pub use reversing::{reversed, Reversed};
pub use stations::{list_station, read_station, write_station};
pub use texts::read_text;
pub use unfolding::{copy_reached, unfold, unfold_checked, Ending, Unfolded, UnfoldedChecked};
pub use walks::{fresh_walk, walk};

/// The bytes of tables.
pub const TABLES_LENGTH: usize = 2305;
/// The words of the longest plan.
pub const LONGEST_PLAN: usize = 16_384;
/// The bytes of the longest station file, 38 blocks of 512; none is longer.
pub const LONGEST_STATION: usize = 19_456;
/// The bytes of the longest listing; none is longer.
pub const LONGEST_LISTING: usize = 93_000;
/// The bytes of the record of a step from left to right, as the unfolding writes it: law, then
/// place, low byte first.
pub const RECORD: usize = 3;

/// The plan reached: a part of area A after an even number of steps, of area B after an odd
/// one.
fn reached<'t>(steps: usize, size: usize, a: &'t [u8], b: &'t [u8]) -> &'t [u8] {
    let area = if steps.is_multiple_of(2) { a } else { b };
    &area[..size]
}
