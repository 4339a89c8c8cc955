//! Plans typed in signs.

use crate::judging::counted;
use crate::{raw, Refusal};

/// Reads a text, a plan typed in signs, under tables: the plan's words go to the area, zeros
/// behind. Answers the plan's length.
///
/// A *sum* is products with `+` between them, a *product* is units with `.` between them, and
/// both group to the left. With s for a sum, a *unit* is
///
/// | unit | what it is | its last word |
/// |---|---|--:|
/// | `0`, `1`, … | an action, at most n, in decimal without leading zeros | the action |
/// | `(s)` | the sum in it | that of s |
/// | `T(s)` | priority | 70 |
/// | `H0(s)` to `H7(s)` | encapsulation by set 0 to 7 | 80 to 87 |
/// | `(s # s)` | merge | 66 |
/// | `(s [ s)` | left merge | 67 |
/// | <code>(s &#124; s)</code> | communication merge | 68 |
/// | `(s < s)` | unless | 69 |
///
/// One blank stands on each side of `#`, `[`, `|` and `<`, and none anywhere else: no line feed
/// either. Of all these brackets at most 200 are open at once.
///
/// # Errors
///
/// Refusals 1 to 8 for the tables; then the first fault of the text: 61 for a character that
/// cannot go on, for a text that ends too early (its place is the text's length) and for an
/// action above n (its place is the first digit), and 62 for an opening bracket that goes deeper
/// than 200; then 63 for a plan that is longer than its area or than 16,384 words. The area then
/// keeps its bytes.
///
/// ```
/// use aberulwy::{read_text, Place};
///
/// let (tables, mut plan) = (aberulwy::examples::trial_tables(), [7; 5]);
/// // Action 1 merged with action 2.
/// let size = read_text(&tables, b"(1 # 2)", &mut plan)?;
/// assert_eq!(plan[..size], [1, 2, 66]);
/// assert_eq!(plan[size..], [0; 2]);
///
/// // A slip: the blank behind the sign is missing.
/// let refusal = read_text(&tables, b"(1 #2)", &mut plan).unwrap_err();
/// assert_eq!((refusal.number(), refusal.place()), (61, Place::Byte(4)));
/// // An area that is too short for the plan.
/// let refusal = read_text(&tables, b"(1 # 2)", &mut plan[..2]).unwrap_err();
/// assert_eq!((refusal.number(), refusal.place()), (63, Place::Nowhere));
/// # Ok::<(), aberulwy::Refusal>(())
/// ```
pub fn read_text(tables: &[u8], text: &[u8], plan_area: &mut [u8]) -> Result<usize, Refusal> {
    counted(raw::read_text(tables, text, plan_area))
}
