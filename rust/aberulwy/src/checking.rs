//! The checker.

use crate::{raw, reached, Refusal};

/// What the checker found.
#[derive(Clone, Copy, Debug, PartialEq, Eq, Hash)]
pub enum Verdict {
    /// Every step fits, and the last plan is the claimed one: both plans have the same tree.
    Accepted,
    /// 31: the next step's law doesn't fit at its place; or, from right to left, doesn't make its
    /// left side into the subplan there; or the place is past the end.
    DoesNotFit,
    /// 32: the next plan is longer than the areas can hold.
    TooLong,
    /// 33: all steps were made, and the last plan is not the claimed one.
    EndDiffers,
}

/// A check that was not refused.
#[derive(Clone, Copy, Debug, PartialEq, Eq, Hash)]
pub struct Checked {
    /// What was found.
    pub verdict: Verdict,
    /// The steps made. Under 31 and 32 this is the index of the step that was not.
    pub steps: usize,
    /// The words of the plan reached.
    pub size: usize,
}

impl Checked {
    /// Whether the rewriting was accepted.
    ///
    /// ```
    /// let tables = aberulwy::examples::trial_tables();
    /// let (mut a, mut b) = ([0; 8], [0; 8]);
    /// // Law 4 at place 2: x+x to x.
    /// let (start, rewriting) = ([1, 1, 64], [4, 2, 0]);
    /// let mut check =
    ///     |claimed| aberulwy::check_rewriting(&tables, &start, claimed, &rewriting, &mut a, &mut b);
    /// assert!(check(&[1])?.accepted());
    /// assert!(!check(&[2])?.accepted());
    /// # Ok::<(), aberulwy::Refusal>(())
    /// ```
    pub fn accepted(&self) -> bool {
        self.verdict == Verdict::Accepted
    }

    /// The plan reached, a part of area A or B as the steps made are even or odd. The areas
    /// are those that were lent to the checker.
    ///
    /// # Panics
    ///
    /// If they are shorter than those.
    ///
    /// ```
    /// use aberulwy::{check_rewriting, Verdict};
    ///
    /// let tables = aberulwy::examples::trial_tables();
    /// let (mut a, mut b) = ([0; 8], [0; 8]);
    /// // Law 1 at place 2, then law 4 there, which does not fit: one step is made.
    /// let (start, rewriting) = ([1, 2, 64], [1, 2, 0, 4, 2, 0]);
    /// let checked = check_rewriting(&tables, &start, &[1], &rewriting, &mut a, &mut b)?;
    /// assert_eq!((checked.verdict, checked.steps), (Verdict::DoesNotFit, 1));
    /// assert_eq!(checked.reached(&a, &b), [2, 1, 64]);
    /// // After one step that is the beginning of B; A has the plan one step before.
    /// assert_eq!((&b[..3], &a[..3]), (&[2, 1, 64][..], &start[..]));
    /// # Ok::<(), aberulwy::Refusal>(())
    /// ```
    pub fn reached<'t>(&self, a: &'t [u8], b: &'t [u8]) -> &'t [u8] {
        reached(self.steps, self.size, a, b)
    }
}

/// Checks a rewriting: replays its records from the start plan, by all thirty-two laws, and
/// compares the last plan with the claimed one.
///
/// A record of three bytes is a step from left to right: the law, then the place, low byte first. A
/// record whose first byte is 128 more than a law's number is a step from right to left. Behind its
/// place it has the length of the left side, two bytes, low byte first, and the words of the left
/// side. It fits when that law, applied at the last of these words, gives exactly the subplan at the
/// place; the left side then stands there instead. A record carries its left side because the right
/// side alone does not tell it: 0 may come from 0·x, whatever x was. [`reversed`](crate::reversed)
/// turns a rewriting round.
///
/// Afterwards one area holds the plan reached ([`Checked::reached`]); the other holds the plan
/// one step before, or zeros if no step was made. All bytes behind are zero.
///
/// # Errors
///
/// Refusals 1 to 8; 11 to 14 and 15 for the start plan; 18 for the claimed plan; then for the
/// rewriting 16 (its last record is cut short), 17 (a first byte names no law in either direction)
/// and 75 (a left side that a record carries is no accepted plan), the last two with the step's index.
/// The areas then keep their bytes.
///
/// ```
/// use aberulwy::{check_rewriting, Place, Verdict};
///
/// let tables = aberulwy::examples::trial_tables();
/// let (start, claimed) = ([1, 2, 64], [2, 1, 64]);
/// let (mut a, mut b) = ([0; 8], [0; 8]);
/// // Law 1 at place 2: x+y to y+x.
/// let checked = check_rewriting(&tables, &start, &claimed, &[1, 2, 0], &mut a, &mut b)?;
/// assert!(checked.accepted());
/// // Law 4 asks for two equal operands.
/// let checked = check_rewriting(&tables, &start, &claimed, &[4, 2, 0], &mut a, &mut b)?;
/// assert_eq!((checked.verdict, checked.steps), (Verdict::DoesNotFit, 0));
///
/// // Law 4 from right to left, at place 0: 1 back to 1 + 1, the three words of the left side.
/// let (back, doubled) = ([132, 0, 0, 3, 0, 1, 1, 64], [1, 1, 64]);
/// let checked = check_rewriting(&tables, &[1], &doubled, &back, &mut a, &mut b)?;
/// assert!(checked.accepted());
/// assert_eq!(checked.reached(&a, &b), doubled);
/// // By law 4 this left side comes to 1, and not to 2.
/// let checked = check_rewriting(&tables, &[2], &doubled, &back, &mut a, &mut b)?;
/// assert_eq!((checked.verdict, checked.steps), (Verdict::DoesNotFit, 0));
///
/// // The last word of the left side is missing; and a left side that lacks an operand.
/// let refused = check_rewriting(&tables, &[1], &doubled, &back[..7], &mut a, &mut b);
/// assert_eq!(refused.unwrap_err().number(), 16);
/// let lacking = [132, 0, 0, 2, 0, 1, 64];
/// let refusal = check_rewriting(&tables, &[1], &doubled, &lacking, &mut a, &mut b).unwrap_err();
/// assert_eq!((refusal.number(), refusal.place()), (75, Place::Step(0)));
/// # Ok::<(), aberulwy::Refusal>(())
/// ```
pub fn check_rewriting(
    tables: &[u8],
    start: &[u8],
    claimed: &[u8],
    rewriting: &[u8],
    a: &mut [u8],
    b: &mut [u8],
) -> Result<Checked, Refusal> {
    checked(raw::check_rewriting(
        tables, start, claimed, rewriting, a, b,
    ))
}

/// The named answer of a check.
pub(crate) fn checked(answer: raw::Ended) -> Result<Checked, Refusal> {
    let verdict = match answer.number {
        0 => Verdict::Accepted,
        31 => Verdict::DoesNotFit,
        32 => Verdict::TooLong,
        33 => Verdict::EndDiffers,
        number => return Err(Refusal::new(number, answer.place)),
    };
    Ok(Checked {
        verdict,
        steps: answer.steps,
        size: answer.size,
    })
}
