//! Rewritings to replay: exchanges in a long sum, from left to right and from right to left, and the
//! lists of unfoldings, as they are and turned round.

use super::{
    record, sizes, trial_tables, Contender, Ended, Unfolding, Workload, CHOICE, MERGES, PLAIN,
    SHORT_CHAIN,
};
use reference::records::record_backwards;
use reference::turning::turned_round;

/// A rewriting to replay, and what is lent.
pub struct Replay {
    tables: Vec<u8>,
    start: Vec<u8>,
    claimed: Vec<u8>,
    rewriting: Vec<u8>,
    a: Vec<u8>,
    b: Vec<u8>,
}

/// The bytes of the record of a step from right to left, but for the words of its left side.
const HEAD: usize = 5;

impl Replay {
    /// The words of all left sides, where all steps, so many, go from right to left.
    pub fn carried(&self, steps: usize) -> usize {
        self.rewriting.len() - HEAD * steps
    }

    /// An unfolding's own list, from the plan to the one reached, with areas as long as the
    /// unfolding's.
    fn own(mut unfolding: Unfolding) -> Replay {
        unfolding.run(PLAIN);
        Replay {
            tables: unfolding.tables,
            start: unfolding.plan,
            claimed: unfolding.reached,
            rewriting: unfolding.list,
            a: unfolding.a,
            b: unfolding.b,
        }
    }

    /// The rewriting turned round, from the claimed plan to the start plan.
    fn turned_round(&self) -> Replay {
        let turned = turned_round(&self.tables, &self.start, &self.rewriting);
        Replay {
            tables: self.tables.clone(),
            start: self.claimed.clone(),
            claimed: self.start.clone(),
            rewriting: turned.expect("every step fits"),
            a: self.a.clone(),
            b: self.b.clone(),
        }
    }
}

impl Workload for Replay {
    fn run(&mut self, contender: Contender) -> Ended {
        let (tables, start, claimed) = (&self.tables, &self.start, &self.claimed);
        let (a, b) = (&mut self.a, &mut self.b);
        (contender.check_rewriting)(tables, start, claimed, &self.rewriting, a, b)
    }

    fn lent(&mut self) -> Vec<&mut [u8]> {
        vec![&mut self.a, &mut self.b]
    }
}

/// The words that an exchange is made on where they are few; where they are many, about a quarter of
/// the plan.
const SHORT: usize = 3;

/// 1 + (2 + … + 2), and (2 + … + 2) + 1, of so many words: an odd number from 3 on.
fn exchanged(words: usize) -> [Vec<u8>; 2] {
    let mut twos = vec![2];
    while twos.len() + 2 < words {
        twos.extend([2, CHOICE]);
    }
    [
        [&[1], &twos[..], &[CHOICE]].concat(),
        [&twos[..], &[1, CHOICE]].concat(),
    ]
}

/// A sum of at most so many words, in which 1 + (2 + … + 2), of so many words, stands at the front
/// and at the end.
fn sum_around(words: usize, ends: usize) -> Vec<u8> {
    let [end, _] = exchanged(ends);
    let mut plan = end.clone();
    while plan.len() + end.len() + 3 <= words {
        plan.extend([3, CHOICE]);
    }
    plan.extend(end);
    plan.push(CHOICE);
    plan
}

/// A sum of actions with at most so many words, 7 or more, in which 1 + 2 stands at the front and
/// at the end.
pub fn long_sum(words: usize) -> Vec<u8> {
    sum_around(words, SHORT)
}

/// Where the steps of a rewriting are.
#[derive(Clone, Copy)]
enum Places {
    /// All at the same place, at the front.
    Near,
    /// In turns at the front and at the end.
    Far,
}

/// The places with their names, and the steps that are made where left sides are short; where they
/// are long, as many as at far places.
const PLACES: [(&str, Places, usize); 2] =
    [("near", Places::Near, 4000), ("far", Places::Far, FAR)];
const FAR: usize = 400;

/// Exchanges (law 1) in a sum of at most so many words, of the first and last so many of them. The
/// record of a step is made from its place and its left side. Each place is used an even number of
/// times, so the last plan is the first.
fn replay(
    (words, ends): (usize, usize),
    places: Places,
    steps: usize,
    record: impl Fn(usize, &[u8]) -> Vec<u8>,
) -> Replay {
    let start = sum_around(words, ends);
    let (front, end) = (ends - 1, start.len() - 2);
    let [one_first, one_last] = exchanged(ends);
    let both = |place| [record(place, &one_last), record(place, &one_first)];
    let ([front, front_again], [end, end_again]) = (both(front), both(end));
    let rewriting = match places {
        Places::Near => [front, front_again].concat().repeat(2 * (steps / 4)),
        Places::Far => {
            let four = [front, end, front_again, end_again].concat();
            four.repeat(steps / 4)
        }
    };
    let (a, b) = (vec![0; start.len()], vec![0; start.len()]);
    Replay {
        tables: trial_tables(),
        claimed: start.clone(),
        start,
        rewriting,
        a,
        b,
    }
}

/// Exchanges of two actions in sums of growing lengths, each with the name of its places.
pub fn exchanges() -> Vec<(String, Replay)> {
    let forwards = |place, _: &[u8]| record(1, place).to_vec();
    let mut all = Vec::new();
    for (name, places, steps) in PLACES {
        for words in sizes() {
            let replay = replay((words, SHORT), places, steps, forwards);
            all.push((name.to_string(), replay));
        }
    }
    all
}

/// Exchanges from right to left, each with the cells that name it: the words of its left sides, and
/// its places. With short left sides the plans are those of `exchanges`.
pub fn exchanges_back() -> Vec<(String, Replay)> {
    let backwards = |place, left: &[u8]| record_backwards(1, place, left);
    let mut all = Vec::new();
    for long in [false, true] {
        for (name, places, steps) in PLACES {
            for words in sizes() {
                let (left, steps) = match long {
                    true => (words / 4 - 1, FAR),
                    false => (SHORT, steps),
                };
                let replay = replay((words, left), places, steps, backwards);
                all.push((format!("{left} | {name}"), replay));
            }
        }
    }
    all
}

/// The areas of the unfoldings whose lists are replayed.
const LIST_AREAS: [usize; 4] = [256, 1024, 4096, 16_384];

/// The lists of unfoldings, each with the cells that name it (plan and areas): from the plan to the
/// one reached, all steps from left to right; and turned round, all steps from right to left. The
/// unfolding takes the least place each time, so most steps are close to the one before.
pub fn lists() -> Vec<(String, [Replay; 2])> {
    let mut all = Vec::new();
    for merge in MERGES {
        for area in LIST_AREAS {
            let (_, unfolding) = merge.longest(SHORT_CHAIN, area);
            let own = Replay::own(unfolding);
            let turned = own.turned_round();
            all.push((format!("{} | {area}", merge.name), [own, turned]));
        }
    }
    all
}

#[cfg(test)]
mod tests {
    use super::*;
    use reference::records::cut;

    /// The laws of a rewriting's steps and the words that they carry; none in a step from left to
    /// right.
    fn steps(replay: &Replay) -> Vec<(u8, Option<usize>)> {
        let records = cut(&replay.rewriting).expect("whole records");
        let step = |record: &reference::records::Record| {
            let law = record.law().expect("a law");
            (law, record.left.map(<[u8]>::len))
        };
        records.iter().map(step).collect()
    }

    #[test]
    fn exchanges_are_accepted() {
        let all = exchanges();
        let sizes: Vec<usize> = sizes().collect();
        assert_eq!(all.len(), PLACES.len() * sizes.len());
        let wanted = PLACES.map(|(name, _, steps)| (name, steps));
        let wanted = wanted.into_iter().flat_map(|(name, steps)| {
            let each = move |&words| (name, steps, words);
            sizes.iter().map(each)
        });
        for ((name, mut replay), (wanted, count, words)) in all.into_iter().zip(wanted) {
            assert_eq!(name, wanted);
            assert_eq!(replay.run(PLAIN), (0, count, words - 1), "{name}");
            assert_eq!(replay.start, long_sum(words));
            assert_eq!(steps(&replay), vec![(1, None); count], "{name}");
        }
    }

    #[test]
    fn exchanges_back_carry_what_their_names_say() {
        let (all, forwards) = (exchanges_back(), exchanges());
        assert_eq!(all.len(), 2 * forwards.len());
        for (index, (names, mut replay)) in all.into_iter().enumerate() {
            let (number, count, words) = replay.run(PLAIN);
            assert_eq!(number, 0, "{names}");
            let (left, _) = names.split_once(" | ").expect("two cells");
            let left = left.parse().expect("a number");
            assert_eq!(steps(&replay), vec![(1, Some(left)); count], "{names}");
            assert_eq!(replay.carried(count), count * left);
            match forwards.get(index) {
                // The same plans and as many steps as from left to right.
                Some((_, other)) => {
                    assert_eq!(left, SHORT);
                    assert_eq!(replay.start, other.start);
                    assert_eq!(steps(other).len(), count);
                }
                None => {
                    assert!(4 * left > words - 8 && 4 * left < words, "{names}");
                    assert_eq!(count, FAR);
                }
            }
        }
    }

    #[test]
    fn lists_go_there_and_back() {
        let all = lists();
        assert_eq!(all.len(), MERGES.len() * LIST_AREAS.len());
        for (names, [mut own, mut turned]) in all {
            let (number, count, words) = own.run(PLAIN);
            assert_eq!((number, words), (0, own.claimed.len()), "{names}");
            assert_eq!(turned.run(PLAIN), (0, count, own.start.len()), "{names}");
            let forwards = steps(&own);
            assert!(forwards.iter().all(|(_, left)| left.is_none()));
            let laws = forwards.iter().rev().map(|(law, _)| *law);
            let backwards = steps(&turned);
            assert!(laws.eq(backwards.iter().map(|(law, _)| *law)), "{names}");
            let carried: Option<usize> = backwards.iter().map(|(_, left)| *left).sum();
            assert_eq!(carried, Some(turned.carried(count)), "{names}");
        }
    }
}
