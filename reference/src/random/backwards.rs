//! Random steps from right to left: left sides that give a subplan, and some that do not.

use super::plans::{action, fixed_word, plan, small_plan};
use super::Random;
use crate::laws::{apply, LAWS, SIDES};
use crate::plans::{operands, subplan, ENCAPSULATION, LAST_ENCAPSULATION, LONGEST_PLAN};
use crate::tables::communication;
use std::collections::BTreeMap;

/// What the letters of a law stand for: x, y, z, a, b, c and ∂.
type Letters = BTreeMap<char, Vec<u8>>;

/// How often a left side is drawn for a law before it is given up.
const TRIES: usize = 12;

/// A law, a place and a left side from which the law gives exactly the subplan there; sought from a
/// random place on.
pub fn any_step_back(
    random: &mut Random,
    tables: &[u8],
    plan: &[u8],
) -> Option<(u8, usize, Vec<u8>)> {
    let first = random.below(plan.len());
    let mut places = (0..plan.len().min(16)).map(|further| (first + further) % plan.len());
    places.find_map(|place| {
        let right = subplan(plan, place);
        let laws: Vec<u8> = (1..=LAWS).filter(|&law| gives(law, right)).collect();
        let law = favoured(random, &laws);
        let left = left_side_of(random, tables, law, right)?;
        Some((law, place, left))
    })
}

/// Laws that ask the tables.
const BY_THE_TABLES: [u8; 5] = [10, 20, 21, 24, 25];

/// A law, a place and a left side of the law, with the letters of the subplan there; of several
/// tries, the first of which the tables say that the law gives something else, or nothing.
pub fn near_step_back(random: &mut Random, tables: &[u8], plan: &[u8]) -> (u8, usize, Vec<u8>) {
    let place = random.below(plan.len());
    let right = subplan(plan, place);
    let (by_the_tables, others): (Vec<u8>, Vec<u8>) = (1..=LAWS)
        .filter(|&law| gives(law, right))
        .partition(|law| BY_THE_TABLES.contains(law));
    let law = match by_the_tables.is_empty() || random.once_in(4) {
        true => favoured(random, &others),
        false => random.pick(&by_the_tables),
    };
    let mut left = Vec::new();
    for _ in 0..TRIES {
        let mut letters = read_right(law, right).expect("the law gives it");
        fill(random, tables[0], law, &mut letters);
        left = written(law, &letters);
        let given = apply(tables, &left, law, left.len() - 1);
        if !by_the_tables.contains(&law) || given.as_deref() != Some(right) {
            break;
        }
    }
    (law, place, left)
}

/// Whether the law's right side can be this subplan, under some tables.
fn gives(law: u8, right: &[u8]) -> bool {
    read_right(law, right).is_some()
}

/// One of the laws; seldom 4, 7 and 8, whose right side is any plan.
fn favoured(random: &mut Random, laws: &[u8]) -> u8 {
    let law = random.pick(laws);
    match law {
        4 | 7 | 8 => random.pick(laws),
        _ => law,
    }
}

/// A left side from which the law gives exactly this subplan. What the law forgets is anything; of
/// several tries, the first that meets the law's condition.
pub fn left_side_of(random: &mut Random, tables: &[u8], law: u8, right: &[u8]) -> Option<Vec<u8>> {
    let read = read_right(law, right)?;
    (0..TRIES).find_map(|_| {
        let mut letters = read.clone();
        fill_entry(random, tables, &mut letters);
        fill(random, tables[0], law, &mut letters);
        let left = written(law, &letters);
        let fits = left.len() <= LONGEST_PLAN
            && apply(tables, &left, law, left.len() - 1).as_deref() == Some(right);
        fits.then_some(left)
    })
}

/// What the letters of the law's right side stand for, where it is this subplan.
fn read_right(law: u8, right: &[u8]) -> Option<Letters> {
    let mut letters = Letters::new();
    let mut rest = right;
    for letter in SIDES[law as usize - 1].1.chars().rev() {
        let (&last, before) = rest.split_last()?;
        let taken = match letter {
            'x' | 'y' | 'z' => subplan(rest, before.len()).len(),
            'a' | 'b' | 'c' if operands(last) == 0 => 1,
            '∂' if (ENCAPSULATION..=LAST_ENCAPSULATION).contains(&last) => 1,
            _ if fixed_word(letter) == Some(last) => 1,
            _ => return None,
        };
        let (before, words) = rest.split_at(rest.len() - taken);
        let same = letters.insert(letter, words.to_vec());
        if same.is_some_and(|earlier| earlier != words) {
            return None;
        }
        rest = before;
    }
    rest.is_empty().then_some(letters)
}

/// Lets a and b stand for actions with the table entry that c stands for, where there are some.
fn fill_entry(random: &mut Random, tables: &[u8], letters: &mut Letters) {
    let Some(entry) = letters.get(&'c') else {
        return;
    };
    let n = tables[0];
    let pairs = (0..=n).flat_map(|a| (0..=n).map(move |b| (a, b)));
    let meets = |&(a, b): &(u8, u8)| communication(tables, a, b) == entry[0];
    let pairs: Vec<(u8, u8)> = pairs.filter(meets).collect();
    if !pairs.is_empty() {
        let (a, b) = random.pick(&pairs);
        letters.extend([('a', vec![a]), ('b', vec![b])]);
    }
}

/// Lets the letters that stand on the law's left side alone stand for something.
fn fill(random: &mut Random, n: u8, law: u8, letters: &mut Letters) {
    for letter in SIDES[law as usize - 1].0.chars() {
        if !letters.contains_key(&letter) && fixed_word(letter).is_none() {
            let words = match letter {
                'a' | 'b' => vec![action(random, n)],
                '∂' => vec![ENCAPSULATION + random.below(8) as u8],
                _ => forgotten(random, n),
            };
            letters.insert(letter, words);
        }
    }
}

/// A plan that a law forgets: mostly a small one, seldom one as long as can be.
fn forgotten(random: &mut Random, n: u8) -> Vec<u8> {
    let size = match random.below(400) {
        0 => LONGEST_PLAN - random.between(1, 4),
        1..=8 => random.between(240, 300),
        _ => return small_plan(random, n, 7),
    };
    plan(random, n, size)
}

/// The law's left side with the letters replaced by what they stand for.
fn written(law: u8, letters: &Letters) -> Vec<u8> {
    let sides = SIDES[law as usize - 1].0.chars();
    let words = sides.map(|letter| match fixed_word(letter) {
        Some(word) => vec![word],
        None => letters[&letter].clone(),
    });
    words.collect::<Vec<_>>().concat()
}

/// A left side that is not an accepted plan, but by chance; seldom one that is too long, which may
/// have as many words as two bytes can tell.
pub fn no_plan(random: &mut Random, n: u8) -> Vec<u8> {
    let mut words = small_plan(random, n, 7);
    let at = random.below(words.len());
    match random.below(60) {
        0 | 1 => return too_long(random, n),
        2..=9 => return Vec::new(),
        10..=17 => words[at] = random.pick(&[n + 1, 32, 63, 71, 79, 88, 95, 96, 128, 161, 255]),
        18..=22 => words.insert(at, random.pick(&[n + 1, 31 + n, 255])),
        // An action above n, where the plan has its first one.
        23..=29 => words[0] = random.between(n as usize + 1, 32) as u8,
        30..=39 => words.insert(0, action(random, n)),
        40..=44 => words.insert(0, 70),
        45..=49 => words.push(64),
        50..=54 => words.push(action(random, n)),
        _ => words[0] = random.pick(&[64, 65, 66, 67, 68, 69, 70, 80, 87]),
    }
    words
}

/// Too many words, which are a plan but for that, or two.
fn too_long(random: &mut Random, n: u8) -> Vec<u8> {
    let size = match random.below(6) {
        0 | 1 => 65_535 - random.below(2),
        2 => random.between(LONGEST_PLAN + 1, 65_535),
        _ => LONGEST_PLAN + random.between(1, 2),
    };
    match random.below(2) {
        0 => vec![0; size],
        _ => plan(random, n, size),
    }
}
