//! Precedence. One pass over a basic plan's words, with the subplans that wait for their sign, tells
//! of each subplan where the second action first stands in it without the first before it.

use super::basic::is_basic;
use reference::plans::{CHOICE, LONGEST_PLAN, PRODUCT};
use reference::precedence::Precedence;
use reference::tables::outside;
use reference::Refusal;

/// Asks whether one action comes before another on every path; the answer is that of the library.
pub fn precedes(tables: &[u8], plan: &[u8], first: u8, second: u8) -> Result<Precedence, Refusal> {
    let basic = is_basic(tables, plan)?;
    if first == second || outside(tables, first) || outside(tables, second) {
        return Err(Refusal::nowhere(73));
    }
    if !basic {
        return Err(Refusal::nowhere(70));
    }
    let at = usize::from(least_place(plan, first, second));
    Ok(match at < plan.len() {
        true => Precedence::No { at },
        false => Precedence::Yes,
    })
}

/// No place: it is greater than every one.
const NOWHERE: u16 = u16::MAX;
/// No place either: what the first action has, so that a product tells that it begins with it.
const FIRST: u16 = u16::MAX - 1;

/// The least place in a basic plan where the second action has none of the first before it; a number
/// greater than every place where there is none.
fn least_place(plan: &[u8], first: u8, second: u8) -> u16 {
    let mut places = [NOWHERE; LONGEST_PLAN];
    let mut waiting = 0;
    for (place, &word) in plan.iter().enumerate() {
        match word {
            CHOICE => {
                waiting -= 1;
                places[waiting - 1] = places[waiting - 1].min(places[waiting]);
            }
            PRODUCT => {
                waiting -= 1;
                places[waiting - 1] = match places[waiting - 1] {
                    FIRST => NOWHERE,
                    factor => factor.min(places[waiting]),
                };
            }
            action => {
                places[waiting] = match action {
                    _ if action == second => place as u16,
                    _ if action == first => FIRST,
                    _ => NOWHERE,
                };
                waiting += 1;
            }
        }
    }
    places[0]
}
