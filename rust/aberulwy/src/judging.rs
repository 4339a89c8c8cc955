//! Calls that judge tables and a plan, and ask something of the plan.

use crate::raw;
use crate::Refusal;

/// Whether tables are accepted.
///
/// # Errors
///
/// Refusals 1 to 8.
///
/// ```
/// use aberulwy::{judge_tables, Place};
///
/// let mut tables = aberulwy::examples::trial_tables();
/// assert_eq!(judge_tables(&tables), Ok(()));
/// // 3 communicates with 3 to 1: now (1|2)|3 is 1, and 1|(2|3) is dead stop.
/// tables[1 + 32 * 3 + 3] = 1;
/// let refusal = judge_tables(&tables).unwrap_err();
/// assert_eq!(refusal.number(), 6);
/// assert_eq!(refusal.place(), Place::Triple(1, 2, 3));
/// ```
pub fn judge_tables(tables: &[u8]) -> Result<(), Refusal> {
    judged(raw::judge_tables(tables))
}

/// Whether tables, and then a plan, are accepted.
///
/// # Errors
///
/// Refusals 1 to 8, and 11 to 14.
///
/// ```
/// use aberulwy::{judge_plan, Place};
///
/// let tables = aberulwy::examples::trial_tables();
/// assert_eq!(judge_plan(&tables, &[1, 2, 66]), Ok(()));
/// // Merge takes two operands.
/// let refusal = judge_plan(&tables, &[1, 66]).unwrap_err();
/// assert_eq!((refusal.number(), refusal.place()), (13, Place::Byte(1)));
/// ```
pub fn judge_plan(tables: &[u8], plan: &[u8]) -> Result<(), Refusal> {
    judged(raw::judge_plan(tables, plan))
}

/// Whether a plan is basic: dead stop, or a sum of actions and of actions followed by basic
/// plans. In a basic plan none of laws 5 to 32 fits anywhere; in any other plan one does.
///
/// # Errors
///
/// Refusals 1 to 8, and 11 to 14.
///
/// ```
/// use aberulwy::is_basic;
///
/// let tables = aberulwy::examples::trial_tables();
/// assert_eq!(is_basic(&tables, &[1, 2, 65]), Ok(true));
/// assert_eq!(is_basic(&tables, &[1, 2, 66]), Ok(false));
/// // These tables have four actions, so 5 is no word.
/// assert_eq!(is_basic(&tables, &[5]).unwrap_err().number(), 12);
/// ```
pub fn is_basic(tables: &[u8], plan: &[u8]) -> Result<bool, Refusal> {
    counted(raw::is_basic(tables, plan)).map(|basic| basic == 1)
}

/// How many paths of a plan finish, and how many are stuck.
#[derive(Clone, Copy, Debug, PartialEq, Eq, Hash)]
pub struct Counts {
    /// The orders: the paths that finish.
    pub orders: usize,
    /// The paths into a dead stop.
    pub stuck: usize,
}

/// Counts the paths of a basic plan: those that finish are its orders, and those into a dead stop
/// are stuck. Dead stop is one stuck path and no order, an action is one order, a sequence counts
/// what follows its action, and a sum adds. So a path that stands twice in the words counts twice.
/// A plan that is not basic has 0 of both.
///
/// # Errors
///
/// Refusals 1 to 8, and 11 to 14.
///
/// ```
/// use aberulwy::{count_orders, Counts};
///
/// let tables = aberulwy::examples::trial_tables();
/// // 1·2 + 2·1 + 3, which the merge of 1 and 2 unfolds to.
/// let counts = count_orders(&tables, &[1, 2, 65, 2, 1, 65, 64, 3, 64]);
/// assert_eq!(counts, Ok(Counts { orders: 3, stuck: 0 }));
/// // 1·δ + 2: after 1 nothing goes on.
/// let counts = count_orders(&tables, &[1, 0, 65, 2, 64]);
/// assert_eq!(counts, Ok(Counts { orders: 1, stuck: 1 }));
/// // Dead stop alone.
/// assert_eq!(count_orders(&tables, &[0]), Ok(Counts { orders: 0, stuck: 1 }));
/// // 1 + 1: by the words.
/// assert_eq!(count_orders(&tables, &[1, 1, 64]), Ok(Counts { orders: 2, stuck: 0 }));
/// // A merge is not basic.
/// assert_eq!(count_orders(&tables, &[1, 2, 66]), Ok(Counts { orders: 0, stuck: 0 }));
/// // The empty plan is refused.
/// assert_eq!(count_orders(&tables, &[]).unwrap_err().number(), 11);
/// ```
pub fn count_orders(tables: &[u8], plan: &[u8]) -> Result<Counts, Refusal> {
    let answer = raw::count_orders(tables, plan);
    match answer.number {
        0 => Ok(Counts {
            orders: answer.orders,
            stuck: answer.stuck,
        }),
        number => Err(Refusal::new(number, answer.place)),
    }
}

/// Nothing more than that it was done, or the refusal.
pub(crate) fn judged(answer: raw::Judged) -> Result<(), Refusal> {
    match answer.number {
        0 => Ok(()),
        number => Err(Refusal::new(number, answer.place)),
    }
}

/// The value, or the refusal.
pub(crate) fn counted(answer: raw::Counted) -> Result<usize, Refusal> {
    match answer.number {
        0 => Ok(answer.value),
        number => Err(Refusal::new(number, answer.place)),
    }
}
