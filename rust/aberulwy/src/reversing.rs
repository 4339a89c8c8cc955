//! Rewritings turned round.

use crate::words::subplan;
use crate::{check_rewriting, Checked, Refusal, LONGEST_PLAN, RECORD};

/// What the first byte of a step from right to left is above its law's number.
const BACKWARDS: u8 = 128;

/// What came of turning a rewriting round.
#[derive(Clone, Debug, PartialEq, Eq, Hash)]
pub enum Reversed {
    /// The rewriting from the claimed plan back to the start plan. The checker has accepted it.
    Rewriting(Vec<u8>),
    /// The rewriting handed in is not accepted, so there is none to turn round; and what the checker
    /// found in it.
    NotAccepted(Checked),
}

impl Reversed {
    /// The rewriting turned round; none where the one handed in is not accepted.
    ///
    /// ```
    /// let tables = aberulwy::examples::trial_tables();
    /// // Law 7 at place 2: x+δ to x.
    /// let turned = |claimed| aberulwy::reversed(&tables, &[1, 0, 64], claimed, &[7, 2, 0]);
    /// assert_eq!(turned(&[1])?.rewriting(), Some(vec![135, 0, 0, 3, 0, 1, 0, 64]));
    /// assert_eq!(turned(&[2])?.rewriting(), None);
    /// # Ok::<(), aberulwy::Refusal>(())
    /// ```
    pub fn rewriting(self) -> Option<Vec<u8>> {
        match self {
            Reversed::Rewriting(rewriting) => Some(rewriting),
            Reversed::NotAccepted(_) => None,
        }
    }
}

/// Turns a rewriting round: from one that the checker accepts from the start plan to the claimed
/// one, makes one that it accepts from the claimed plan to the start plan. The last step comes
/// first, a step from left to right is made one from right to left, which carries the words that the
/// step was made on, and a step from right to left is made one from left to right. A rewriting turned
/// round twice is the first one again.
///
/// This function is no call of the proved library, but plain Rust around its checker. It has the
/// rewriting checked first, in areas of its own as long as the longest plan, then each step by
/// itself to find the plans on the way, and at last what it has made: a rewriting that it answers is
/// accepted. That one is always made, from every accepted rewriting, is proved of the definition
/// that this function follows, and not of this function.
///
/// A step from left to right takes three bytes; turned round it takes five, and one for each word
/// that it was made on. So the rewriting turned round can be much longer. Each step is a call of the
/// checker, which judges the tables and copies the plan.
///
/// # Errors
///
/// The refusals of [`check_rewriting`]: 1 to 8; 11 to 14 for the start plan; 18 for the claimed
/// plan; 16, 17 and 75 for the rewriting. A rewriting that is turned back (31, 32, 33) is no error:
/// the answer then is [`Reversed::NotAccepted`].
///
/// # Panics
///
/// If the checker does not accept what was made, which cannot happen with a library that does as
/// proved.
///
/// ```
/// use aberulwy::{check_rewriting, reversed, unfold, Reversed, Verdict};
///
/// let tables = aberulwy::examples::trial_tables();
/// // 1 and 2 merged, which unfolds to 1·2 + 2·1 + 3 in four steps.
/// let plan = [1, 2, 66];
/// let (mut list, mut a, mut b) = ([0; 300], [0; 64], [0; 64]);
/// let unfolded = unfold(&tables, &plan, u32::MAX, &mut list, &mut a, &mut b)?;
/// let (reached, forwards) = (unfolded.reached(&a, &b), unfolded.rewriting(&list));
/// assert_eq!(forwards, [11, 2, 0, 12, 2, 0, 12, 5, 0, 10, 9, 0]);
///
/// let Reversed::Rewriting(back) = reversed(&tables, &plan, reached, forwards)? else {
///     panic!("the unfolding's own rewriting is accepted");
/// };
/// let records = [
///     // 3 at place 7 back to 1|2, by law 10: 138 is 128 + 10.
///     [138, 7, 0, 3, 0, 1, 2, 68],
///     // 2·1 at place 5 back to the left merge of 2 and 1, and 1·2 at place 2, by law 12.
///     [140, 5, 0, 3, 0, 2, 1, 67],
///     [140, 2, 0, 3, 0, 1, 2, 67],
///     // All, at place 10, back to the merge, by law 11.
///     [139, 10, 0, 3, 0, 1, 2, 66],
/// ];
/// assert_eq!(back, records.concat());
/// let (mut c, mut d) = ([0; 64], [0; 64]);
/// assert!(check_rewriting(&tables, reached, &plan, &back, &mut c, &mut d)?.accepted());
/// // Turned round again it is the unfolding's own.
/// let again = reversed(&tables, reached, &plan, &back)?;
/// assert_eq!(again.rewriting().as_deref(), Some(forwards));
///
/// // Another end than the claimed one.
/// match reversed(&tables, &plan, &[1], forwards)? {
///     Reversed::NotAccepted(checked) => assert_eq!(checked.verdict, Verdict::EndDiffers),
///     Reversed::Rewriting(_) => panic!("the plan reached is not 1"),
/// }
/// # Ok::<(), aberulwy::Refusal>(())
/// ```
pub fn reversed(
    tables: &[u8],
    start: &[u8],
    claimed: &[u8],
    rewriting: &[u8],
) -> Result<Reversed, Refusal> {
    let (mut a, mut b) = (vec![0; LONGEST_PLAN], vec![0; LONGEST_PLAN]);
    let checked = check_rewriting(tables, start, claimed, rewriting, &mut a, &mut b)?;
    if !checked.accepted() {
        return Ok(Reversed::NotAccepted(checked));
    }
    // Each record is put behind the one before with its last byte first, so that in the end all of
    // it, read from behind, is the records in their new order.
    let (mut turned, mut plan, mut rest) = (Vec::new(), start.to_vec(), rewriting);
    while !rest.is_empty() {
        let (record, behind) = split_record(rest);
        // A single step: any plan may be claimed, and the one that stands is at hand.
        let made = check_rewriting(tables, &plan, &plan, record, &mut a, &mut b)?;
        let next = made.reached(&a, &b);
        turned.extend(turned_record(&plan, record, next.len()).iter().rev());
        plan.clear();
        plan.extend(next);
        rest = behind;
    }
    turned.reverse();
    let back = check_rewriting(tables, claimed, start, &turned, &mut a, &mut b)?;
    assert!(back.accepted(), "turned round, it is accepted: {back:?}");
    Ok(Reversed::Rewriting(turned))
}

/// The first record of an accepted rewriting, and those behind it. In such a one every first byte is
/// a law's number, or 128 more.
fn split_record(rewriting: &[u8]) -> (&[u8], &[u8]) {
    let length = match rewriting[0] {
        ..BACKWARDS => RECORD,
        _ => RECORD + 2 + usize::from(two_bytes(&rewriting[RECORD..])),
    };
    rewriting.split_at(length)
}

/// The record of the step back from the next plan, of so many words, to this one. What a step puts
/// in ends as far before the end of the plan as what it takes away.
fn turned_record(plan: &[u8], record: &[u8], next_words: usize) -> Vec<u8> {
    let (first, place) = (record[0], usize::from(two_bytes(&record[1..])));
    let next_place = (place + next_words - plan.len()) as u16;
    let mut turned = vec![first ^ BACKWARDS];
    turned.extend(next_place.to_le_bytes());
    if first < BACKWARDS {
        let left = subplan(plan, place);
        turned.extend((left.len() as u16).to_le_bytes());
        turned.extend(left);
    }
    turned
}

/// A number in two bytes, low byte first.
fn two_bytes(bytes: &[u8]) -> u16 {
    u16::from_le_bytes([bytes[0], bytes[1]])
}
