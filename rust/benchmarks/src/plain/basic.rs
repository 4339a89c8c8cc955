//! Which plans are basic, in one pass over the words.

use reference::plans::{judge, operands, CHOICE, LONGEST_PLAN, PRODUCT};
use reference::tables::DEAD_STOP;
use reference::Refusal;

/// Judges tables and plan, and answers whether the plan is basic. Both calls of a walk use the same
/// code, as in the library, so that what one takes can be taken off the other.
#[inline(never)]
pub fn is_basic(tables: &[u8], plan: &[u8]) -> Result<bool, Refusal> {
    judge(tables, plan)?;
    Ok(are_basic(plan))
}

/// What a subplan is that a basic plan may have.
#[derive(Clone, Copy, PartialEq)]
enum Kind {
    DeadStop,
    Action,
    Sum,
}

/// Whether the words of an accepted plan are a basic one.
fn are_basic(plan: &[u8]) -> bool {
    let mut kinds = [Kind::DeadStop; LONGEST_PLAN];
    let mut waiting = 0;
    for &word in plan {
        match operands(word) {
            0 => {
                kinds[waiting] = match word {
                    DEAD_STOP => Kind::DeadStop,
                    _ => Kind::Action,
                };
                waiting += 1;
            }
            2 => {
                waiting -= 1;
                let (first, second) = (kinds[waiting - 1], kinds[waiting]);
                let basic = match word {
                    CHOICE => first != Kind::DeadStop && second != Kind::DeadStop,
                    PRODUCT => first == Kind::Action,
                    _ => false,
                };
                if !basic {
                    return false;
                }
                kinds[waiting - 1] = Kind::Sum;
            }
            _ => return false,
        }
    }
    true
}
