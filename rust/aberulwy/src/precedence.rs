//! Precedence: whether one action comes before another, as a weight before a photograph.

use crate::{raw, Refusal};

/// Whether each appearance of an action has another action before it.
#[derive(Clone, Copy, Debug, PartialEq, Eq, Hash)]
pub enum Precedence {
    /// On every path each appearance of the second action has the first somewhere before it.
    Yes,
    /// Some appearance of the second action has none of the first before it on its path.
    No {
        /// The least place of such an appearance: the index of a word of the plan, from 0.
        at: usize,
    },
}

/// Weight before photograph: whether on every path of a basic plan each appearance of the second
/// action has the first somewhere before it; and if not, the least place of an appearance that has
/// none before it on its path.
///
/// The answer is no exactly if a path of the plan's tree has the second action with none of the
/// first before it: if a photograph can overtake its weight. A path into a dead stop counts as
/// others do, and a plan in which the second action does not appear is answered yes. A word of a
/// basic plan has one path to it, so that a place tells the path too; the least place need not be
/// that of the action's first appearance.
///
/// # Errors
///
/// Refusals 1 to 8, and 11 to 14; then 73 for equal actions and for one outside 1 to n; then 70 for
/// a plan that is not basic.
///
/// ```
/// use aberulwy::{precedes, Place, Precedence};
///
/// let tables = aberulwy::examples::trial_tables();
/// let (weight, photograph) = (1, 2);
/// let ask = |plan: &[u8]| precedes(&tables, plan, weight, photograph);
/// // 1·(2 + 3·2): the weight comes first, whichever way it goes on.
/// assert_eq!(ask(&[1, 2, 3, 2, 65, 64, 65]), Ok(Precedence::Yes));
/// // 1·2 + 3·2: on the second path the photograph overtakes the weight.
/// assert_eq!(ask(&[1, 2, 65, 3, 2, 65, 64]), Ok(Precedence::No { at: 4 }));
/// // No photograph at all.
/// assert_eq!(ask(&[1, 3, 65]), Ok(Precedence::Yes));
///
/// // A merge is not basic.
/// let refusal = ask(&[1, 2, 66]).unwrap_err();
/// assert_eq!((refusal.number(), refusal.place()), (70, Place::Nowhere));
/// // These tables have four actions.
/// let refusal = precedes(&tables, &[1, 2, 65], weight, 5).unwrap_err();
/// assert_eq!((refusal.number(), refusal.place()), (73, Place::Nowhere));
/// ```
pub fn precedes(tables: &[u8], plan: &[u8], first: u8, second: u8) -> Result<Precedence, Refusal> {
    let answer = raw::precedes(tables, plan, first, second);
    match (answer.number, answer.yes) {
        (0, 0) => Ok(Precedence::No { at: answer.at }),
        (0, _) => Ok(Precedence::Yes),
        (number, _) => Err(Refusal::new(number, answer.place)),
    }
}
