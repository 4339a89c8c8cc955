//! Fixed forms: one plan for all basic plans that do the same.

use crate::judging::counted;
use crate::{raw, Refusal};

/// Brings a basic plan to its fixed form: the form's words go to the beginning of the area, zeros
/// behind. Answers the form's length, which is never more than the plan's.
///
/// In a form every remainder, which is what follows an action, is in form too; no summand stands
/// twice in a sum; the summands stand in ascending order of their bytes, a shorter one first where
/// it begins the longer; and sums group to the left. So 1 goes before 1·2, and that before 2.
///
/// Two basic plans have equal forms exactly when their trees are alike, and the form of a form is
/// itself. 1·(2 + 3) and 1·2 + 1·3 have two forms: after 1 the first can still go on with 2 or 3, and
/// the second with one of them alone.
///
/// # Errors
///
/// Refusals 1 to 8, and 11 to 14; then 70 for a plan that is not basic; then 74 for an area shorter
/// than the form, which one as long as the plan never is. The area then keeps its bytes.
///
/// ```
/// use aberulwy::{fix_form, Place};
///
/// let tables = aberulwy::examples::trial_tables();
/// // Two cataloguers draw one plan: 2 + 1·(3 + 2), and (1·(2 + 3) + 2) + 1·(3 + 2), where a choice
/// // stands twice.
/// let one = [2, 1, 3, 2, 64, 65, 64];
/// let other = [1, 2, 3, 64, 65, 2, 64, 1, 3, 2, 64, 65, 64];
/// let (mut area, mut exact) = ([9; 10], [9; 7]);
/// assert_eq!(fix_form(&tables, &one, &mut area), Ok(7));
/// // 1·(2 + 3) + 2, and zeros behind. An area as long as the form is enough for a longer plan.
/// assert_eq!(area, [1, 2, 3, 64, 65, 2, 64, 0, 0, 0]);
/// assert_eq!(fix_form(&tables, &other, &mut exact), Ok(7));
/// assert_eq!(exact, area[..7]);
///
/// // A plan that does something else: 2 + 1·3 + 1·2.
/// fix_form(&tables, &[2, 1, 3, 65, 64, 1, 2, 65, 64], &mut area)?;
/// assert_eq!(area, [1, 2, 65, 1, 3, 65, 64, 2, 64, 0]);
///
/// // An area one byte shorter than the form; and a merge, which is not basic.
/// let refusal = fix_form(&tables, &one, &mut exact[..6]).unwrap_err();
/// assert_eq!((refusal.number(), refusal.place()), (74, Place::Nowhere));
/// let refusal = fix_form(&tables, &[1, 2, 66], &mut exact).unwrap_err();
/// assert_eq!((refusal.number(), refusal.place()), (70, Place::Nowhere));
/// # Ok::<(), aberulwy::Refusal>(())
/// ```
pub fn fix_form(tables: &[u8], plan: &[u8], area: &mut [u8]) -> Result<usize, Refusal> {
    counted(raw::fix_form(tables, plan, area))
}
