//! An unfolding, and then the check of its own rewriting.

use crate::checking::{self, check_rewriting};
use crate::runs::reached;
use crate::unfolding::{self, unfold, RECORD};

/// "The unfolding's own rewriting is the first 3 × S bytes of its list, S being the steps made
/// in its answer"; "The checker is handed it with the same tables, the given plan as start
/// plan, the plan reached as claimed end plan, and areas A and B", here two further ones.
/// Nothing is checked where the unfolding is refused.
pub fn unfold_checked(
    tables: &[u8],
    plan: &[u8],
    allowance: u32,
    list: &mut [u8],
    [a, b]: [&mut [u8]; 2],
    [c, d]: [&mut [u8]; 2],
) -> (unfolding::Answer, Option<checking::Answer>) {
    let unfolded = unfold(tables, plan, allowance, list, a, b);
    let own = match unfolded {
        unfolding::Answer::Refused(_) => None,
        unfolding::Answer::Ended { steps, size, .. } => {
            let claimed = reached(a, b, steps, size);
            Some(check_rewriting(
                tables,
                plan,
                claimed,
                &list[..RECORD * steps],
                c,
                d,
            ))
        }
    };
    (unfolded, own)
}
