//! The unfolding.

use crate::checking::{checked, Checked};
use crate::{raw, reached, Refusal, RECORD};

/// How an unfolding ended.
#[derive(Clone, Copy, Debug, PartialEq, Eq, Hash)]
pub enum Ending {
    /// No law of 5 to 32 fits any more: the plan reached is basic.
    Finished,
    /// 34: the steps made equal the allowance.
    AllowanceSpent,
    /// 35: the list can't take one record more.
    ListFull,
    /// 36: the next plan is longer than the areas can hold.
    AreasFull,
}

/// An unfolding that was not refused.
#[derive(Clone, Copy, Debug, PartialEq, Eq, Hash)]
pub struct Unfolded {
    /// How it ended.
    pub ending: Ending,
    /// The steps made, one record each in the list.
    pub steps: usize,
    /// The words of the plan reached.
    pub size: usize,
}

impl Unfolded {
    /// The plan reached, a part of area A or B as the steps made are even or odd. The areas
    /// are those that were lent to the unfolding.
    ///
    /// # Panics
    ///
    /// If they are shorter than those.
    ///
    /// ```
    /// let tables = aberulwy::examples::trial_tables();
    /// let (mut list, mut a, mut b) = ([0; 30], [0; 16], [0; 16]);
    /// // Dead stop goes first: 0·1 to 0 by law 9, in one step.
    /// let unfolded = aberulwy::unfold(&tables, &[0, 1, 65], 9, &mut list, &mut a, &mut b)?;
    /// assert_eq!((unfolded.steps, unfolded.size), (1, 1));
    /// assert_eq!(unfolded.reached(&a, &b), [0]);
    /// // A basic plan takes no step, and stands in A.
    /// let unfolded = aberulwy::unfold(&tables, &[1, 0, 65], 9, &mut list, &mut a, &mut b)?;
    /// assert_eq!(unfolded.reached(&a, &b), &a[..3]);
    /// # Ok::<(), aberulwy::Refusal>(())
    /// ```
    pub fn reached<'t>(&self, a: &'t [u8], b: &'t [u8]) -> &'t [u8] {
        reached(self.steps, self.size, a, b)
    }

    /// The rewriting: the records of the steps made, at the beginning of the list.
    ///
    /// # Panics
    ///
    /// If the list is shorter than the one lent to the unfolding.
    ///
    /// ```
    /// use aberulwy::{check_rewriting, unfold};
    ///
    /// let tables = aberulwy::examples::trial_tables();
    /// let plan = [1, 2, 4, 65, 69];
    /// let (mut list, mut a, mut b) = ([0; 30], [0; 16], [0; 16]);
    /// let unfolded = unfold(&tables, &plan, 9, &mut list, &mut a, &mut b)?;
    /// // Law 26 at place 4, then law 24 at place 2.
    /// assert_eq!(unfolded.rewriting(&list), [26, 4, 0, 24, 2, 0]);
    ///
    /// // What the checker takes.
    /// let (claimed, rewriting) = (unfolded.reached(&a, &b), unfolded.rewriting(&list));
    /// let (mut c, mut d) = ([0; 16], [0; 16]);
    /// assert!(check_rewriting(&tables, &plan, claimed, rewriting, &mut c, &mut d)?.accepted());
    /// # Ok::<(), aberulwy::Refusal>(())
    /// ```
    pub fn rewriting<'t>(&self, list: &'t [u8]) -> &'t [u8] {
        &list[..RECORD * self.steps]
    }

    /// The steps made, each a law and the place where it was used.
    ///
    /// # Panics
    ///
    /// If the list is shorter than the one lent to the unfolding.
    ///
    /// ```
    /// let tables = aberulwy::examples::trial_tables();
    /// let (mut list, mut a, mut b) = ([0; 30], [0; 16], [0; 16]);
    /// let unfolded = aberulwy::unfold(&tables, &[1, 2, 66], 2, &mut list, &mut a, &mut b)?;
    /// // The allowance is two steps; the list has room for ten.
    /// let steps: Vec<_> = unfolded.records(&list).collect();
    /// assert_eq!(steps, [(11, 2), (12, 2)]);
    /// # Ok::<(), aberulwy::Refusal>(())
    /// ```
    pub fn records<'t>(&self, list: &'t [u8]) -> impl Iterator<Item = (u8, u16)> + 't {
        self.rewriting(list)
            .chunks_exact(RECORD)
            .map(|record| (record[0], u16::from_le_bytes([record[1], record[2]])))
    }
}

/// Unfolds a plan: each step takes the least place at which one of laws 5 to 32 fits, and the
/// lowest such law, until none fits, the allowance is spent, the list is full or the next plan
/// is longer than both areas and 16,384 words allow.
///
/// Afterwards the list holds the records and one area the plan reached
/// ([`Unfolded::reached`]); the other holds the plan one step before, or zeros if no step was
/// made. All bytes behind are zero.
///
/// Every plan needs a number of steps of its own, and finishes exactly where the allowance is not
/// below that number and list and areas hold its steps and plans. A larger allowance changes
/// nothing of what is finished, nor of what a list or an area stopped; docs/ALLOWANCES.md has what
/// helps a plan that was stopped.
///
/// # Errors
///
/// Refusals 1 to 8, 11 to 14, and 15 for a plan longer than the areas can hold. List and areas
/// then keep their bytes.
///
/// ```
/// use aberulwy::{unfold, Ending};
///
/// let tables = aberulwy::examples::trial_tables();
/// // 1 and 2 merged, 1 and 2 by themselves blocked: only their communication is left.
/// let plan = [1, 2, 66, 80];
/// let (mut list, mut a, mut b) = ([0; 300], [0; 64], [0; 64]);
/// let unfolded = unfold(&tables, &plan, u32::MAX, &mut list, &mut a, &mut b)?;
/// assert_eq!((unfolded.ending, unfolded.steps), (Ending::Finished, 17));
/// assert_eq!(unfolded.reached(&a, &b), [3]);
///
/// let three = unfold(&tables, &plan, 3, &mut list, &mut a, &mut b)?;
/// assert_eq!((three.ending, three.steps), (Ending::AllowanceSpent, 3));
/// // From the plan reached it needs the 14 steps that are left.
/// let stopped = three.reached(&a, &b).to_vec();
/// let rest = unfold(&tables, &stopped, u32::MAX, &mut list, &mut a, &mut b)?;
/// assert_eq!((rest.ending, rest.steps), (Ending::Finished, 14));
/// // Areas shorter than the plan.
/// let refused = unfold(&tables, &plan, 3, &mut list, &mut a[..3], &mut b);
/// assert_eq!(refused.unwrap_err().number(), 15);
/// # Ok::<(), aberulwy::Refusal>(())
/// ```
pub fn unfold(
    tables: &[u8],
    plan: &[u8],
    allowance: u32,
    list: &mut [u8],
    a: &mut [u8],
    b: &mut [u8],
) -> Result<Unfolded, Refusal> {
    unfolded(raw::unfold(tables, plan, allowance, list, a, b))
}

/// The named answer of an unfolding.
fn unfolded(answer: raw::Ended) -> Result<Unfolded, Refusal> {
    let ending = match answer.number {
        0 => Ending::Finished,
        34 => Ending::AllowanceSpent,
        35 => Ending::ListFull,
        36 => Ending::AreasFull,
        number => return Err(Refusal::new(number, answer.place)),
    };
    Ok(Unfolded {
        ending,
        steps: answer.steps,
        size: answer.size,
    })
}

/// An unfolding that was not refused, and the check of its own rewriting.
#[derive(Clone, Copy, Debug, PartialEq, Eq, Hash)]
pub struct UnfoldedChecked {
    /// The unfolding.
    pub unfolded: Unfolded,
    /// The check of its own rewriting, from the given plan to the plan reached. It is refused
    /// (15) where its areas can't hold the given plan.
    pub own: Result<Checked, Refusal>,
}

/// Unfolds a plan as [`unfold`] does in areas A and B, and then checks the unfolding's own
/// rewriting as [`check_rewriting`](crate::check_rewriting) does, in two further areas. Where
/// these are as long as A and B, the check accepts: that is proved.
///
/// # Errors
///
/// As for [`unfold`]. Nothing is checked then, and the list and all four areas keep their
/// bytes.
///
/// ```
/// use aberulwy::{unfold_checked, Verdict};
///
/// let tables = aberulwy::examples::trial_tables();
/// let plan = [1, 2, 66, 80];
/// let (mut list, mut a, mut b) = ([0; 300], [0; 64], [0; 64]);
/// let (mut c, mut d) = ([0; 64], [0; 64]);
/// let areas = [&mut a[..], &mut b[..]];
/// let both = unfold_checked(&tables, &plan, 9, &mut list, areas, [&mut c, &mut d])?;
/// let own = both.own?;
/// assert!(own.accepted());
/// assert_eq!((own.steps, own.size), (both.unfolded.steps, both.unfolded.size));
/// assert_eq!(own.reached(&c, &d), both.unfolded.reached(&a, &b));
///
/// // In areas of 11 bytes the first step's plan doesn't fit.
/// let areas = [&mut a[..], &mut b[..]];
/// let both = unfold_checked(&tables, &plan, 9, &mut list, areas, [&mut c[..11], &mut d])?;
/// assert_eq!(both.own?.verdict, Verdict::TooLong);
///
/// // No plan: nothing is unfolded or checked.
/// let areas = [&mut a[..], &mut b[..]];
/// let refused = unfold_checked(&tables, &[], 9, &mut list, areas, [&mut c, &mut d]);
/// assert_eq!(refused.unwrap_err().number(), 11);
/// # Ok::<(), aberulwy::Refusal>(())
/// ```
pub fn unfold_checked(
    tables: &[u8],
    plan: &[u8],
    allowance: u32,
    list: &mut [u8],
    areas: [&mut [u8]; 2],
    check_areas: [&mut [u8]; 2],
) -> Result<UnfoldedChecked, Refusal> {
    let answer = raw::unfold_checked(tables, plan, allowance, list, areas, check_areas);
    let unfolded = unfolded(answer.unfolded)?;
    let own = checked(raw::Ended {
        number: answer.own_number as u8,
        steps: answer.own_steps,
        size: answer.own_size,
        place: answer.own_place,
    });
    Ok(UnfoldedChecked { unfolded, own })
}

/// Copies the plan reached, after so many steps and of so many words, out of area A or B into
/// another area, zeros behind. None where that area is too short, which then keeps its bytes.
/// An area of fewer words is copied whole. [`Unfolded::reached`] hands out the part itself.
///
/// ```
/// let (a, b) = ([1, 2, 64, 0], [3, 0, 0, 0]);
/// let mut plan = [7; 5];
/// assert_eq!(aberulwy::copy_reached(&a, &b, 2, 3, &mut plan), Some(&[1, 2, 64][..]));
/// assert_eq!(plan, [1, 2, 64, 0, 0]);
/// assert_eq!(aberulwy::copy_reached(&a, &b, 1, 1, &mut []), None);
/// ```
pub fn copy_reached<'t>(
    a: &[u8],
    b: &[u8],
    steps: usize,
    size: usize,
    plan_area: &'t mut [u8],
) -> Option<&'t [u8]> {
    let handed = raw::reached(a, b, steps, size, plan_area);
    (handed.number == 0).then(|| &plan_area[..handed.size])
}
