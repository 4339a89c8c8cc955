//! Counting. In a basic plan each dead stop ends a path, and there is one path more than there are
//! signs of choice.

use super::basic::is_basic;
use reference::plans::{Counts, CHOICE};
use reference::tables::DEAD_STOP;
use reference::Refusal;

/// Counts orders and stuck paths; the answer is that of the library.
pub fn count_orders(tables: &[u8], plan: &[u8]) -> Result<Counts, Refusal> {
    let count = |wanted| plan.iter().filter(|&&word| word == wanted).count();
    let (paths, stuck) = match is_basic(tables, plan)? {
        true => (1 + count(CHOICE), count(DEAD_STOP)),
        false => (0, 0),
    };
    Ok(Counts {
        orders: paths - stuck,
        stuck,
    })
}
