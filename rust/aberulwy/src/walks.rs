//! Walks: the hub's progress through a basic plan, and one message at a time.

use crate::judging::judged;
use crate::{raw, Refusal};

/// Begins a walk: one mark, at the plan's last word, and no finish reached.
///
/// A hub that follows a basic plan keeps its progress in `marks` and `finished`, and hands both
/// to [`walk`] with each message. The marks are one byte for each word of the plan. Where a word
/// is marked, the messages so far can have led to the subplan whose last word it is; and a finish
/// is reached where exactly these messages can end in one.
///
/// # Errors
///
/// Refusals 1 to 8, and 11 to 14; then 70 for a plan that is not basic, and for marks of another
/// length than the plan. Marks and `finished` then keep what they held.
///
/// ```
/// use aberulwy::fresh_walk;
///
/// let tables = aberulwy::examples::trial_tables();
/// let (mut marks, mut finished) = ([7; 7], true);
/// // 1·2 + 1·3.
/// fresh_walk(&tables, &[1, 2, 65, 1, 3, 65, 64], &mut marks, &mut finished)?;
/// assert_eq!((marks, finished), ([0, 0, 0, 0, 0, 0, 1], false));
///
/// // A merge is not basic.
/// let refusal = fresh_walk(&tables, &[1, 2, 66], &mut marks[..3], &mut finished).unwrap_err();
/// assert_eq!(refusal.number(), 70);
/// # Ok::<(), aberulwy::Refusal>(())
/// ```
pub fn fresh_walk(
    tables: &[u8],
    plan: &[u8],
    marks: &mut [u8],
    finished: &mut bool,
) -> Result<(), Refusal> {
    lent(finished, |finished| {
        raw::fresh_walk(tables, plan, marks, finished)
    })
}

/// Brings a message, an action, to a walk. Where it is taken, a mark of 1 stands at each subplan
/// that it leads to and zero at every other word, and `finished` says whether a finish is reached.
///
/// Any byte but zero reads as a mark, and any set of marks is a progress; what `finished` held
/// does not count. From a fresh walk, a message is taken exactly when some path of the plan's tree
/// begins with the messages taken so far and this one.
///
/// # Errors
///
/// Refusals 1 to 8, 11 to 14, and 70, as of [`fresh_walk`]; then 71 for an action outside 1 to n,
/// and 72 for a message that no path goes on with. Marks and `finished` then keep what they held,
/// and the walk can go on with another message.
///
/// ```
/// use aberulwy::{fresh_walk, walk};
///
/// let (tables, plan) = (aberulwy::examples::trial_tables(), [1, 2, 65, 1, 3, 65, 64]);
/// let (mut marks, mut finished) = ([0; 7], false);
/// fresh_walk(&tables, &plan, &mut marks, &mut finished)?;
/// // Both summands begin with 1: then comes 2, or 3.
/// walk(&tables, &plan, &mut marks, 1, &mut finished)?;
/// assert_eq!((marks, finished), ([0, 1, 0, 0, 1, 0, 0], false));
///
/// // No path goes on with 4.
/// let refusal = walk(&tables, &plan, &mut marks, 4, &mut finished).unwrap_err();
/// assert_eq!(refusal.number(), 72);
/// assert_eq!((marks, finished), ([0, 1, 0, 0, 1, 0, 0], false));
///
/// walk(&tables, &plan, &mut marks, 3, &mut finished)?;
/// assert_eq!((marks, finished), ([0; 7], true));
/// # Ok::<(), aberulwy::Refusal>(())
/// ```
pub fn walk(
    tables: &[u8],
    plan: &[u8],
    marks: &mut [u8],
    message: u8,
    finished: &mut bool,
) -> Result<(), Refusal> {
    lent(finished, |finished| {
        raw::walk(tables, plan, marks, message, finished)
    })
}

/// Makes a call that is lent as a number whether a finish is reached.
fn lent(finished: &mut bool, call: impl FnOnce(&mut usize) -> raw::Judged) -> Result<(), Refusal> {
    let mut number = usize::from(*finished);
    let answer = call(&mut number);
    *finished = number != 0;
    judged(answer)
}
