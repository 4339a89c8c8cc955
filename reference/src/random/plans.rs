//! Random plans: accepted ones of a given size, basic ones, ones in which a given law
//! fits, and damaged ones.

use super::Random;
use crate::laws::SIDES;
use crate::plans::{
    operands, CHOICE, COMMUNICATION_MERGE, ENCAPSULATION, LEFT_MERGE, LONGEST_PLAN, MERGE, PRODUCT,
    THETA, UNLESS,
};
use crate::tables::DEAD_STOP;

/// Signs from which a plan is made; a sign standing twice comes twice as often.
const TASTES: [&[u8]; 7] = [
    &[64, 65, 66, 67, 68, 69, 70, 80, 81, 87],
    &[64, 65],
    &[64, 65, 65, 66],
    &[64, 65, 69, 70],
    &[64, 65, 67, 68],
    &[64, 65, 80, 83, 87],
    &[64],
];

/// Small plans over at most three actions that are not basic, each for a reason of its own.
pub const NOT_BASIC: [&[u8]; 22] = [
    &[0, 1, 64],
    &[1, 0, 64],
    &[0, 0, 64],
    &[0, 1, 65],
    &[0, 0, 65],
    &[1, 2, 65, 3, 65],
    &[1, 2, 64, 3, 65],
    &[1, 1, 0, 64, 65],
    &[1, 2, 66],
    &[1, 2, 67],
    &[1, 0, 67],
    &[1, 2, 68],
    &[0, 1, 68],
    &[1, 2, 69],
    &[1, 0, 65, 2, 69],
    &[0, 70],
    &[1, 70],
    &[0, 80],
    &[1, 80],
    &[1, 0, 65, 87],
    &[1, 2, 3, 66, 65],
    &[1, 2, 87, 65],
];

/// How the words of a plan are shared out between two operands.
#[derive(Clone, Copy)]
enum Shape {
    Any,
    Left,
    Right,
    Even,
}

/// A size for a plan: mostly small, sometimes at an edge.
pub fn plan_size(random: &mut Random) -> usize {
    match random.below(64) {
        0 => random.pick(&[8191, 8192, 8193, LONGEST_PLAN - 1, LONGEST_PLAN]),
        1..=2 => random.between(1, 600),
        3..=12 => random.between(1, 50),
        13..=24 => random.between(1, 3),
        _ => random.between(1, 14),
    }
}

/// An accepted plan over n actions, of any size.
pub fn any_plan(random: &mut Random, n: u8) -> Vec<u8> {
    match random.below(8) {
        0..=2 => plan_with_left_side(random, n),
        3 => {
            let leaves = random.between(1, 6);
            basic_plan(random, n, leaves)
        }
        _ => {
            let size = plan_size(random);
            plan(random, n, size)
        }
    }
}

/// An accepted plan over n actions, of at most so many words.
pub fn small_plan(random: &mut Random, n: u8, most: usize) -> Vec<u8> {
    let size = random.between(1, most);
    plan(random, n, size)
}

/// An accepted plan over n actions, of exactly this size.
pub fn plan(random: &mut Random, n: u8, size: usize) -> Vec<u8> {
    let taste = random.pick(&TASTES);
    let shape = random.pick(&[
        Shape::Any,
        Shape::Any,
        Shape::Left,
        Shape::Right,
        Shape::Even,
    ]);
    let mut backwards = Vec::with_capacity(size);
    let mut waiting = vec![size];
    while let Some(size) = waiting.pop() {
        let sign = sign(random, taste, size);
        match sign {
            None => backwards.push(action(random, n)),
            Some(word @ (THETA | ENCAPSULATION..)) => {
                backwards.push(word);
                waiting.push(size - 1);
            }
            Some(word) => {
                backwards.push(word);
                let left = share(random, shape, size - 1);
                waiting.push(left);
                waiting.push(size - 1 - left);
            }
        }
    }
    backwards.reverse();
    backwards
}

/// The sign of a plan of this size; none for an action.
fn sign(random: &mut Random, taste: &[u8], size: usize) -> Option<u8> {
    match size {
        1 => None,
        2 => Some(random.pick(&[THETA, 80, 81, 84, 87])),
        _ => Some(random.pick(taste)),
    }
}

/// How many of the words, or of the actions, go to the left operand.
fn share(random: &mut Random, shape: Shape, words: usize) -> usize {
    match shape {
        Shape::Any => random.between(1, words - 1),
        Shape::Left => words - 1,
        Shape::Right => 1,
        Shape::Even => words / 2,
    }
}

/// An action over n, the low ones and dead stop more often.
pub fn action(random: &mut Random, n: u8) -> u8 {
    match random.below(8) {
        0 => 0,
        1..=3 => random.between(1, n as usize) as u8,
        _ => random.between(1, n.min(3) as usize) as u8,
    }
}

/// A basic plan over n actions with so many paths: orders alone, stuck ones alone, or both.
pub fn basic_plan(random: &mut Random, n: u8, paths: usize) -> Vec<u8> {
    let stuck_in_six = random.pick(&STUCK_IN_SIX);
    basic_part(random, n, paths, stuck_in_six, true)
}

/// How many paths in six are stuck: in some plans none, in some all that can be.
const STUCK_IN_SIX: [usize; 5] = [0, 1, 1, 3, 6];

/// A part of a basic plan: a sum-plan, unless it may be dead stop.
fn basic_part(
    random: &mut Random,
    n: u8,
    paths: usize,
    stuck_in_six: usize,
    may_stop: bool,
) -> Vec<u8> {
    if paths == 1 {
        let stuck = random.below(6) < stuck_in_six;
        return one_path(random, n, stuck, may_stop);
    }
    if random.once_in(3) {
        let first = random.between(1, n as usize) as u8;
        let rest = basic_part(random, n, paths, stuck_in_six, true);
        return [vec![first], rest, vec![PRODUCT]].concat();
    }
    let left = random.between(1, paths - 1);
    let x = basic_part(random, n, left, stuck_in_six, false);
    let y = basic_part(random, n, paths - left, stuck_in_six, false);
    [x, y, vec![CHOICE]].concat()
}

/// A part with one path: a few actions in a row, and dead stop behind them if it is stuck.
fn one_path(random: &mut Random, n: u8, stuck: bool, may_stop: bool) -> Vec<u8> {
    let least = usize::from(!(stuck && may_stop));
    let mut path = Vec::new();
    while path.len() < least || random.once_in(2) {
        path.push(random.between(1, n as usize) as u8);
    }
    if stuck {
        path.push(DEAD_STOP);
    }
    path.resize(2 * path.len() - 1, PRODUCT);
    path
}

/// A basic plan with exactly so many words that are actions, dead stop counted. Beside dead stop it
/// has at most three different actions, so that many of its summands begin with the same one. Its
/// paths are orders alone, stuck ones alone, or both.
pub fn repeating_basic_plan(random: &mut Random, n: u8, actions: usize) -> Vec<u8> {
    let any = |random: &mut Random| random.between(1, n as usize) as u8;
    let few = [any(random), any(random), any(random)];
    let few = &few[..random.between(1, 3)];
    let stuck_in_six = random.pick(&STUCK_IN_SIX);
    let sums_in_four = random.pick(&[0, 1, 2, 2, 3, 4]);
    // The fewest actions of a sum; from 4 on, none of its summands is an action alone, so that
    // all paths can be stuck.
    let least_sum = random.pick(&[2, 4, 7]);
    let shape = random.pick(&[Shape::Any, Shape::Left, Shape::Right, Shape::Even]);
    let mut backwards = Vec::with_capacity(2 * actions);
    // How many actions a part has, and whether it may be dead stop.
    let mut waiting = vec![(actions, true)];
    while let Some((actions, may_stop)) = waiting.pop() {
        if actions == 1 {
            let stops = may_stop && random.below(6) < stuck_in_six;
            backwards.push(if stops { 0 } else { random.pick(few) });
        } else if actions >= least_sum && random.below(4) < sums_in_four {
            backwards.push(CHOICE);
            let least = least_sum / 2;
            let left = share(random, shape, actions).clamp(least, actions - least);
            waiting.extend([(left, false), (actions - left, false)]);
        } else {
            backwards.push(PRODUCT);
            waiting.extend([(1, false), (actions - 1, true)]);
        }
    }
    backwards.reverse();
    backwards
}

/// A plan somewhere in which the left side of one of the laws stands.
pub fn plan_with_left_side(random: &mut Random, n: u8) -> Vec<u8> {
    let law = random.below(SIDES.len());
    let mut plan = left_side(random, n, law);
    while random.once_in(2) {
        plan = around(random, n, plan);
    }
    plan
}

/// The left side of a law (numbered from 0), its letters replaced by small plans.
fn left_side(random: &mut Random, n: u8, law: usize) -> Vec<u8> {
    let letters: Vec<Vec<u8>> = (0..3).map(|_| small_plan(random, n, 7)).collect();
    let encapsulation = ENCAPSULATION + random.below(8) as u8;
    let mut plan = Vec::new();
    for letter in SIDES[law].0.chars() {
        match letter {
            'x' => plan.extend(&letters[0]),
            'y' => plan.extend(&letters[1]),
            'z' => plan.extend(&letters[2]),
            'a' | 'b' => plan.push(action(random, n)),
            _ => plan.push(fixed_word(letter).unwrap_or(encapsulation)),
        }
    }
    plan
}

/// The word of δ, or of a sign other than ∂, in a law's sides; none for a letter and for ∂, which
/// stand for more than one.
pub(super) fn fixed_word(letter: char) -> Option<u8> {
    match letter {
        'δ' => Some(DEAD_STOP),
        '+' => Some(CHOICE),
        '·' => Some(PRODUCT),
        '‖' => Some(MERGE),
        '⌊' => Some(LEFT_MERGE),
        '|' => Some(COMMUNICATION_MERGE),
        '◁' => Some(UNLESS),
        'θ' => Some(THETA),
        _ => None,
    }
}

/// A plan in which the given one stands as an operand.
fn around(random: &mut Random, n: u8, plan: Vec<u8>) -> Vec<u8> {
    let sign = random.pick(TASTES[0]);
    let other = small_plan(random, n, 5);
    match sign {
        THETA | ENCAPSULATION.. => [plan, vec![sign]].concat(),
        _ if random.once_in(2) => [plan, other, vec![sign]].concat(),
        _ => [other, plan, vec![sign]].concat(),
    }
}

/// Every plan of exactly this size that is made of the words given.
pub fn every_plan(words: &[u8], size: usize) -> Vec<Vec<u8>> {
    let mut begun: Vec<(Vec<u8>, usize)> = vec![(Vec::new(), 0)];
    for _ in 0..size {
        let longer = begun
            .iter()
            .flat_map(|one| words.iter().map(move |&word| (one, word)));
        begun = longer
            .filter_map(|(one, word)| with_word(one, word))
            .collect();
    }
    let whole = begun.into_iter().filter(|(_, waiting)| *waiting == 1);
    whole.map(|(plan, _)| plan).collect()
}

/// A beginning of a plan, with its count of waiting operands, and one word more.
fn with_word((plan, waiting): &(Vec<u8>, usize), word: u8) -> Option<(Vec<u8>, usize)> {
    let left = waiting.checked_sub(operands(word) as usize)?;
    Some(([&plan[..], &[word]].concat(), left + 1))
}

/// A plan with damage; by chance, it may still be accepted.
pub fn damaged_plan(random: &mut Random, n: u8) -> Vec<u8> {
    let mut damaged = match random.below(16) {
        0 => plan_of_a_wrong_size(random, n),
        _ => any_plan(random, n),
    };
    damage(random, n, &mut damaged);
    while random.once_in(4) {
        damage(random, n, &mut damaged);
    }
    damaged
}

/// A plan that is right but for its size, which is close to the longest.
fn plan_of_a_wrong_size(random: &mut Random, n: u8) -> Vec<u8> {
    let size = LONGEST_PLAN + random.below(4);
    match random.below(3) {
        0 => vec![0; size],
        _ => plan(random, n, size),
    }
}

fn damage(random: &mut Random, n: u8, plan: &mut Vec<u8>) {
    let at = random.below(plan.len() + 1);
    let bad = random.pick(&[n + 1, 31, 32, 63, 71, 79, 88, 89, 95, 96, 128, 255]);
    match random.below(12) {
        0 => plan.clear(),
        1 | 2 if at < plan.len() => plan[at] = bad,
        3 if at < plan.len() => plan[at] = random.byte(),
        4 | 5 if at < plan.len() => plan[at] = random.pick(TASTES[0]),
        6 if at < plan.len() => drop(plan.remove(at)),
        7 => plan.insert(at, random.pick(TASTES[0])),
        8 => plan.insert(at, action(random, n)),
        9 => plan.insert(at, bad),
        10 => plan.truncate(at),
        _ => plan.push(random.pick(&[0, 1, 64, 70, 80, bad])),
    }
}
