//! The fixed form of a basic plan. The words are read once, with the summands of the subplans that
//! wait for their sign. No word is moved: each has a link to the one after it in the form.

use super::basic::is_basic;
use reference::plans::{CHOICE, LONGEST_PLAN, PRODUCT};
use reference::Refusal;
use std::iter::from_fn;

/// Brings a basic plan to its fixed form; the answer and the lent bytes are those of the library.
pub fn fix_form(tables: &[u8], plan: &[u8], area: &mut [u8]) -> Result<usize, Refusal> {
    if !is_basic(tables, plan)? {
        return Err(Refusal::nowhere(70));
    }
    let mut links = [0; LONGEST_PLAN];
    let form = gather(plan, &mut links);
    let size = usize::from(form.size);
    if area.len() < size {
        return Err(Refusal::nowhere(74));
    }
    let (front, behind) = area.split_at_mut(size);
    for (byte, word) in front.iter_mut().zip(words(plan, &links, form)) {
        *byte = word;
    }
    behind.fill(0);
    Ok(size)
}

/// The most actions of a basic plan: it has one more than it has signs, which all take two operands.
const MOST_ACTIONS: usize = LONGEST_PLAN / 2;

/// A link of at least this is a sign of choice, with the place so much less after it. Which of the
/// plan's own signs of choice it is does not matter.
const SIGN: u16 = LONGEST_PLAN as u16;

/// Words in form: where the first one stands, and how many they are.
#[derive(Clone, Copy, Default)]
struct Chain {
    first: u16,
    size: u16,
}

/// A summand, and where its last word stands.
#[derive(Clone, Copy, Default)]
struct Summand {
    chain: Chain,
    last: u16,
}

/// The words of a chain.
fn words<'w>(plan: &'w [u8], links: &'w [u16], chain: Chain) -> impl Iterator<Item = u8> + 'w {
    let mut next = chain.first;
    let each = from_fn(move || match next.checked_sub(SIGN) {
        Some(place) => {
            next = place;
            Some(CHOICE)
        }
        None => {
            let place = usize::from(next);
            next = links[place];
            Some(plan[place])
        }
    });
    each.take(chain.size.into())
}

/// Links the words of a basic plan as its form has them.
fn gather(plan: &[u8], links: &mut [u16]) -> Chain {
    let mut summands = [Summand::default(); MOST_ACTIONS];
    let mut count = 0;
    // Where the summands of each waiting subplan begin.
    let mut starts = [0; MOST_ACTIONS];
    let mut waiting = 0;
    for (place, &word) in plan.iter().enumerate() {
        let place = place as u16;
        match word {
            // The summands of two subplans stand side by side already.
            CHOICE => waiting -= 1,
            PRODUCT => {
                waiting -= 1;
                let start = usize::from(starts[waiting]);
                let remainder = close(plan, links, &mut summands[start..count], place);
                // The first factor is an action, the last summand before the remainder's.
                let action = &mut summands[start - 1];
                links[usize::from(action.last)] = remainder.first;
                action.last = place;
                action.chain.size += remainder.size + 1;
                count = start;
            }
            _ => {
                let chain = Chain {
                    first: place,
                    size: 1,
                };
                summands[count] = Summand { chain, last: place };
                starts[waiting] = count as u16;
                count += 1;
                waiting += 1;
            }
        }
    }
    close(plan, links, &mut summands[..count], 0)
}

/// The sum of these summands in form: sorted, one of those that are equal, each linked to the next,
/// and the last to the place that comes behind.
fn close(plan: &[u8], links: &mut [u16], summands: &mut [Summand], behind: u16) -> Chain {
    let order = |x: &Summand, y: &Summand| {
        let (x, y) = (words(plan, links, x.chain), words(plan, links, y.chain));
        x.cmp(y)
    };
    summands.sort_unstable_by(order);
    let mut kept = summands[0];
    let mut sum = kept.chain;
    // The second summand comes right after the first, and a sign after each but the first.
    let mut sign = 0;
    for &next in &summands[1..] {
        let (x, y) = (kept.chain, next.chain);
        if x.size == y.size && words(plan, links, x).eq(words(plan, links, y)) {
            continue;
        }
        links[usize::from(kept.last)] = sign + y.first;
        sign = SIGN;
        sum.size += y.size + 1;
        kept = next;
    }
    links[usize::from(kept.last)] = sign + behind;
    sum
}

#[cfg(test)]
mod tests {
    use super::*;
    use reference::tables::trial_tables;

    /// The answer, and an area of nines afterwards.
    fn fixed(plan: &[u8], length: usize) -> (Result<usize, Refusal>, Vec<u8>) {
        let mut area = vec![9; length];
        let answer = fix_form(&trial_tables(), plan, &mut area);
        (answer, area)
    }

    #[test]
    fn small_plans() {
        assert_eq!(fixed(&[0], 2), (Ok(1), vec![0, 0]));
        assert_eq!(fixed(&[1, 0, 65], 3), (Ok(3), vec![1, 0, 65]));
        // Of 1, 1·2 and 2 the shorter one comes first where it begins the longer.
        let (answer, area) = fixed(&[2, 1, 2, 65, 1, 64, 64], 8);
        assert_eq!((answer, area), (Ok(7), vec![1, 1, 2, 65, 64, 2, 64, 0]));
        // 1·(3 + 2) and 1·(2 + 3 + 2) are equal in form alone.
        let plan = [1, 3, 2, 64, 65, 1, 2, 3, 2, 64, 64, 65, 64];
        assert_eq!(fixed(&plan, 5), (Ok(5), vec![1, 2, 3, 64, 65]));
    }

    #[test]
    fn refusals_keep_the_area() {
        let refused = |number| Err(Refusal::nowhere(number));
        assert_eq!(fixed(&[], 1), (refused(11), vec![9]));
        assert_eq!(fixed(&[1, 2, 66], 0), (refused(70), vec![]));
        assert_eq!(fixed(&[1, 2, 64], 2), (refused(74), vec![9, 9]));
    }
}
