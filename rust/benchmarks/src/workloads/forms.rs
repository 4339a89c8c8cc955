//! Basic plans to bring to their fixed form: sums in all orders, plans that are deep, and plans for
//! which a sort compares much.

use super::{
    actions, behind_ones, bench, deep_plan, lengths, random_basic_plan, sum, sum_tables,
    trial_tables, Asking, Contender, Ended, Random, Workload, CHOICE, PRODUCT,
};

/// A basic plan to bring to its fixed form, and what is lent: an area as long as the plan.
pub struct Fixing {
    tables: Vec<u8>,
    /// The plan.
    pub plan: Vec<u8>,
    area: Vec<u8>,
}

impl Fixing {
    fn new(tables: Vec<u8>, plan: Vec<u8>) -> Fixing {
        let area = vec![0; plan.len()];
        Fixing { tables, plan, area }
    }

    /// Judges the same plan, under the same tables.
    pub fn judging(&self) -> Asking {
        Asking::judge(self.tables.clone(), self.plan.clone())
    }
}

impl Workload for Fixing {
    fn run(&mut self, contender: Contender) -> Ended {
        (contender.fix_form)(&self.tables, &self.plan, &mut self.area)
    }

    fn lent(&mut self) -> Vec<&mut [u8]> {
        vec![&mut self.area]
    }
}

/// Of all chains of so many of four actions, the one of this number, counted from 0 in ascending
/// order.
fn numbered(number: usize, length: usize) -> Vec<u8> {
    let digits = (0..length).rev().map(|digit| number >> (2 * digit));
    let mut chain: Vec<u8> = digits.map(|digit| 1 + (digit % 4) as u8).collect();
    chain.resize(2 * length - 1, PRODUCT);
    chain
}

/// The actions of each chain in a sum of chains, and its words with a sign of choice.
const CHAINED: (usize, usize) = (8, 16);

/// As many chains as a sum of so many words has, all of them different, in ascending order.
fn chains(words: usize) -> Vec<Vec<u8>> {
    let (length, each) = CHAINED;
    let count = words.div_ceil(each);
    let apart = (1 << (2 * length)) / count;
    let chain = |index| numbered(index * apart, length);
    (0..count).map(chain).collect()
}

/// The same chains in any order.
fn shuffled_chains(words: usize) -> Vec<Vec<u8>> {
    let (random, mut chains) = (&mut Random::new(1), chains(words));
    for index in (1..chains.len()).rev() {
        chains.swap(index, random.below(index + 1));
    }
    chains
}

fn sorted(words: usize) -> Vec<u8> {
    sum(chains(words).into_iter())
}

fn reversed(words: usize) -> Vec<u8> {
    sum(chains(words).into_iter().rev())
}

fn shuffled(words: usize) -> Vec<u8> {
    sum(shuffled_chains(words).into_iter())
}

fn to_the_right(words: usize) -> Vec<u8> {
    let chains = shuffled_chains(words);
    let signs = vec![CHOICE; chains.len() - 1];
    [chains.concat(), signs].concat()
}

fn equal(words: usize) -> Vec<u8> {
    sum(chains(words).iter().map(|_| numbered(0, CHAINED.0)))
}

/// 2 + 1·(2 + 1·(…)), down to 2·1.
fn comb(words: usize) -> Vec<u8> {
    let levels = (words - 3) / 4;
    let (before, behind) = ([2, 1].repeat(levels), [PRODUCT, CHOICE].repeat(levels));
    [before, vec![2, 1, PRODUCT], behind].concat()
}

/// 1·(x + x), where x is the same again, down to 1; and 1 before it all.
fn doubled(words: usize) -> Vec<u8> {
    let mut plan = vec![1];
    while 2 * plan.len() + 5 <= words {
        plan = behind_ones(1, [&plan[..], &plan, &[CHOICE]].concat());
    }
    behind_ones(1, plan)
}

/// A sum of actions drawn at random.
fn actions_alone(words: usize) -> Vec<u8> {
    let random = &mut Random::new(1);
    sum((0..words.div_ceil(2)).map(|_| vec![random.between(1, 4) as u8]))
}

/// A sum of actions and products of two actions, grouped in any way; all of it is drawn at random.
fn small_summands(words: usize, n: u8) -> Vec<u8> {
    let random = &mut Random::new(1);
    let (mut plan, mut waiting) = (Vec::new(), 0);
    // The signs still missing are one less than the summands that wait.
    while plan.len() + waiting < words {
        let [a, b] = [(); 2].map(|()| random.between(1, n.into()) as u8);
        match random.once_in(2) && plan.len() + waiting + 3 <= words {
            true => plan.extend([a, b, PRODUCT]),
            false => plan.push(a),
        }
        waiting += 1;
        while waiting > 1 && random.once_in(2) {
            plan.push(CHOICE);
            waiting -= 1;
        }
    }
    plan.resize(plan.len() + waiting - 1, CHOICE);
    plan
}

fn small(words: usize) -> Vec<u8> {
    small_summands(words, actions(&trial_tables()))
}

/// How the summands of a sum stand that differ from each other in their last words alone.
#[derive(Clone, Copy)]
struct Level {
    /// So many are in front, crossed.
    crossed: usize,
    /// So many come behind, each greater than all before it. A sort that merges runs of 1, 2, 4 and
    /// so on compares a summand with all before it if it is greater, and is the first one of a run
    /// that is merged with a run of them all. So each of these is such a first one, and the places
    /// between are filled with an action.
    behind: usize,
}

const fn level(crossed: usize, behind: usize) -> Level {
    Level { crossed, behind }
}

/// The numbers below a count, in an order in which any two runs have to be merged by turns: that of
/// their bits read from the other end.
fn crossed(count: usize) -> impl Iterator<Item = usize> {
    let bits = count.next_power_of_two().trailing_zeros();
    let turned = move |index: usize| (0..bits).fold(0, |all, bit| 2 * all + (index >> bit) % 2);
    let all = (0..1 << bits).map(turned);
    all.filter(move |&number| number < count)
}

/// Sums in sums, the outer one first: a summand of an outer one is action 1 before an inner one, and
/// those of the innermost are chains of so many actions. In the last of all chains the number is
/// greater by `more`, so that two of these plans differ late.
fn nested(levels: &[Level], length: usize, more: usize) -> Vec<u8> {
    let (level, inner) = levels.split_first().expect("there is a level");
    let last = level.crossed + level.behind - 1;
    let summand = |index| {
        let number = if index == last { index + more } else { index };
        match inner {
            [] => numbered(number, length),
            _ => behind_ones(1, nested(inner, length, number)),
        }
    };
    let mut summands: Vec<Vec<u8>> = crossed(level.crossed).map(summand).collect();
    let mut run = level.crossed.next_power_of_two();
    for index in level.crossed..=last {
        summands.resize(run, vec![1]);
        summands.push(summand(index));
        run *= 2;
    }
    sum(summands.into_iter())
}

/// Summands of 129 words, each of them with 16 chains in it.
fn late(words: usize) -> Vec<u8> {
    nested(&[level((words + 1) / 130, 0), level(16, 0)], 4, 0)
}

/// 1·x + 1·y, where x and y are the same again and differ late.
fn halves(words: usize) -> Vec<u8> {
    let levels = words.ilog2() - 2;
    nested(&vec![level(2, 0); levels as usize], 3, 0)
}

/// Of the sums in sums with so many words, in up to four levels of up to 64 crossed summands, a power
/// of two, and up to 6 behind, about those for which the library compares the most words.
fn steep(words: usize) -> Vec<u8> {
    let levels: &[Level] = match words {
        0..2047 => &[level(8, 4), level(4, 1), level(2, 0)],
        2047..4095 => &[level(16, 3), level(4, 1), level(2, 1)],
        4095..8191 => &[level(16, 4), level(8, 1), level(2, 1)],
        8191..16_383 => &[level(16, 5), level(4, 1), level(4, 1), level(2, 0)],
        _ => &[level(16, 5), level(8, 2), level(4, 1), level(2, 0)],
    };
    nested(levels, 3, 0)
}

/// Makes a plan of so many words, or of some words less.
type Shape = fn(usize) -> Vec<u8>;

/// The shapes measured over four actions, each with its name.
const SHAPES: [(&str, Shape); 14] = [
    ("sorted", sorted),
    ("reversed", reversed),
    ("shuffled", shuffled),
    ("to the right", to_the_right),
    ("equal", equal),
    ("deep", deep_plan),
    ("comb", comb),
    ("doubled", doubled),
    ("random", random_basic_plan),
    ("actions", actions_alone),
    ("small", small),
    ("late", late),
    ("halves", halves),
    ("steep", steep),
];

/// The plans measured, each with the cells that name it: plan and words.
pub fn forms() -> Vec<(String, Fixing)> {
    let (tables, plan) = bench();
    let mut plans = vec![
        ("crusted coin", tables, plan),
        ("action", trial_tables(), vec![1]),
    ];
    for (name, shape) in SHAPES {
        plans.extend(lengths().map(|words| (name, trial_tables(), shape(words))));
    }
    plans.extend(lengths().map(|words| {
        let tables = sum_tables();
        let plan = small_summands(words, actions(&tables));
        ("small, 31 actions", tables, plan)
    }));
    let with_cells = |(name, tables, plan): (&str, Vec<u8>, Vec<u8>)| {
        let cells = format!("{name} | {}", plan.len());
        (cells, Fixing::new(tables, plan))
    };
    plans.into_iter().map(with_cells).collect()
}

#[cfg(test)]
mod tests {
    use super::*;
    use crate::contenders::PLAIN;
    use reference::forms::form;
    use reference::plans::{is_basic, judge};
    use std::collections::HashSet;

    #[test]
    fn plans_are_basic_and_of_nearly_these_lengths() {
        let forms = forms();
        let doubling: Vec<usize> = lengths().collect();
        assert_eq!(doubling, [1023, 2047, 4095, 8191, 16_383]);
        let wanted = [vec![45, 1], doubling.repeat(SHAPES.len() + 1)].concat();
        assert_eq!(forms.len(), wanted.len());
        for ((name, mut fixing), words) in forms.into_iter().zip(wanted) {
            assert_eq!(judge(&fixing.tables, &fixing.plan), Ok(()), "{name}");
            assert!(is_basic(&fixing.plan), "{name}");
            let size = fixing.plan.len();
            assert!(size <= words && 8 * size > 7 * words, "{name}: {words}");
            assert_eq!(fixing.run(PLAIN).0, 0, "{name}");
            assert_eq!(fixing.judging().run(PLAIN), (0, 0, 0), "{name}");
        }
    }

    #[test]
    fn forms_have_these_words() {
        for words in lengths() {
            let sum = sorted(words);
            for shape in [sorted, reversed, shuffled, to_the_right] {
                assert_eq!(form(&shape(words)), sum);
            }
            assert_eq!(form(&equal(words)), numbered(0, 8));
            // Nothing is equal in these.
            for shape in [deep_plan, comb, late, halves] {
                assert_eq!(form(&shape(words)).len(), shape(words).len());
            }
            // 1·(1·(…)), with one action for each time that it was doubled, and two.
            let doublings = words.ilog2() as usize - 1;
            assert_eq!(form(&doubled(words)), numbered(0, doublings + 2));
            // The actions alone are 1 to 4, and before each of them can stand another one.
            assert_eq!(form(&actions_alone(words)).len(), 7);
            assert_eq!(form(&small(words)).len(), 4 + 4 * 4 * 3 + 19);
        }
    }

    /// The summands of these sums are all different, and each has the words of the first one but for
    /// the last few.
    #[test]
    fn summands_differ_late() {
        for (levels, length) in [
            (vec![level(100, 0), level(16, 0)], 4),
            (vec![level(2, 0); 9], 3),
            (vec![level(16, 5), level(8, 2), level(4, 1), level(2, 0)], 3),
        ] {
            let (outer, inner) = levels.split_first().expect("there is a level");
            let summand = |number| nested(inner, length, number);
            let all: Vec<Vec<u8>> = (0..outer.crossed + outer.behind).map(summand).collect();
            let different: HashSet<&Vec<u8>> = all.iter().collect();
            assert_eq!(different.len(), all.len());
            // The last chain, and a sign or two for each level.
            let few = 2 * length + 2 * inner.len();
            for each in &all {
                let same = each.len() - few;
                assert_eq!(each[..same], all[0][..same]);
            }
        }
    }

    #[test]
    fn crossed_numbers_are_merged_by_turns() {
        let eight: Vec<usize> = crossed(8).collect();
        assert_eq!(eight, [0, 4, 2, 6, 1, 5, 3, 7]);
        let five: Vec<usize> = crossed(5).collect();
        assert_eq!(five, [0, 4, 2, 1, 3]);
        assert_eq!(crossed(1).collect::<Vec<_>>(), [0]);
    }
}
