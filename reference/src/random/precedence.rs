//! Random pairs of actions: with plans in which the first stands before the second on all paths,
//! on some or on none, and pairs that are refused.

use super::walks::{count, tables_and_plan};
use super::Random;
use crate::plans::{is_basic, judge, starts, CHOICE, LONGEST_PLAN, PRODUCT, THETA};
use crate::precedence::{precedes, Precedence};
use crate::refusals::Refusal;
use crate::tables::DEAD_STOP;

/// What is handed to the call that asks whether one action precedes another.
#[derive(Clone, Debug)]
pub struct PrecedenceCase {
    /// The tables.
    pub tables: Vec<u8>,
    /// The plan.
    pub plan: Vec<u8>,
    /// The action that is to come before.
    pub first: u8,
    /// The action that is to come behind it.
    pub second: u8,
}

impl PrecedenceCase {
    /// Asks, leaving the case as it is.
    pub fn run(&self) -> Result<Precedence, Refusal> {
        precedes(&self.tables, &self.plan, self.first, self.second)
    }
}

/// A case for the call: mostly with accepted tables, a basic plan and two actions of it.
pub fn precedence_case(random: &mut Random) -> PrecedenceCase {
    let (tables, drawn) = tables_and_plan(random);
    let n = count(&tables);
    let pair = two_actions(random, n, &drawn);
    let plan = match judge(&tables, &drawn).is_ok() && is_basic(&drawn) {
        true if random.once_in(20) => long_plan(random, n, pair),
        true => with_first_put_in(random, drawn, pair),
        false => drawn,
    };
    let (plan, pair) = match random.below(8) {
        0 => exchanged(plan, pair, (pair.0, n)),
        1 => exchanged(plan, pair, (pair.1, n)),
        _ => (plan, pair),
    };
    let (first, second) = match random.below(5) {
        0 => refused_actions(random, n, pair),
        _ => pair,
    };
    PrecedenceCase {
        tables,
        plan,
        first,
        second,
    }
}

/// Two different actions of 1 to n, mostly ones of the plan; where n is 1, they are equal.
fn two_actions(random: &mut Random, n: u8, plan: &[u8]) -> (u8, u8) {
    let second = one_action(random, plan, &Vec::from_iter(1..=n));
    let others: Vec<u8> = (1..=n).filter(|&a| a != second).collect();
    match others.is_empty() {
        true => (second, second),
        false => (one_action(random, plan, &others), second),
    }
}

/// One of these actions, mostly one of the plan.
fn one_action(random: &mut Random, plan: &[u8], choices: &[u8]) -> u8 {
    let here = choices.iter().copied().filter(|a| plan.contains(a));
    let here: Vec<u8> = here.collect();
    match here.is_empty() || random.once_in(6) {
        true => random.pick(choices),
        false => random.pick(&here),
    }
}

/// A plan and a pair with one action in the place of another, and the other in its place.
fn exchanged(mut plan: Vec<u8>, pair: (u8, u8), (one, other): (u8, u8)) -> (Vec<u8>, (u8, u8)) {
    let exchange = |word: u8| match word {
        _ if word == one => other,
        _ if word == other => one,
        _ => word,
    };
    plan.iter_mut().for_each(|word| *word = exchange(*word));
    (plan, (exchange(pair.0), exchange(pair.1)))
}

/// Two actions of which one or both are outside 1 to n, or which are equal.
fn refused_actions(random: &mut Random, n: u8, (first, second): (u8, u8)) -> (u8, u8) {
    let [one, other] = [(); 2].map(|_| outside_action(random, n));
    match random.below(8) {
        0 | 1 => (first, first),
        2 => (second, second),
        3 | 4 => (one, second),
        5 | 6 => (first, one),
        _ if random.once_in(3) => (one, one),
        _ => (one, other),
    }
}

/// Dead stop, or a byte above n.
fn outside_action(random: &mut Random, n: u8) -> u8 {
    match random.below(6) {
        0 | 1 => DEAD_STOP,
        2 => random.pick(&[32, 64, 65, 255]),
        3 => random.between(n as usize + 1, 255) as u8,
        _ => n + 1,
    }
}

/// A basic plan, mostly with the first action put in front: of the whole, of one of two summands,
/// of all branches that begin with the second, or of some of these.
fn with_first_put_in(random: &mut Random, plan: Vec<u8>, (first, second): (u8, u8)) -> Vec<u8> {
    let behind_first = || [&[first], &plan[..], &[PRODUCT]].concat();
    let mut branches = branches_with(&plan, second);
    match random.below(12) {
        0 => return behind_first(),
        1 | 2 => return [&behind_first()[..], &plan, &[CHOICE]].concat(),
        3 | 4 => {}
        5..=7 => branches.retain(|_| random.once_in(2)),
        8 | 9 if !branches.is_empty() => drop(branches.remove(random.below(branches.len()))),
        _ => branches.clear(),
    }
    put_in_front(&plan, first, &branches)
}

/// The places of all products and actions of a basic plan that begin with this action, but for
/// those actions that are a first factor.
fn branches_with(plan: &[u8], action: u8) -> Vec<usize> {
    let starts = starts(plan);
    let mut first_factors = vec![false; plan.len()];
    for (place, &word) in plan.iter().enumerate() {
        if word == PRODUCT {
            first_factors[starts[place]] = true;
        }
    }
    let begins = |place: &usize| {
        let product = plan[*place] == PRODUCT && plan[starts[*place]] == action;
        product || (plan[*place] == action && !first_factors[*place])
    };
    (0..plan.len()).filter(begins).collect()
}

/// The plan with an action put in front of the subplans at these places.
fn put_in_front(plan: &[u8], action: u8, places: &[usize]) -> Vec<u8> {
    let starts = starts(plan);
    let mut in_front = vec![0; plan.len()];
    let mut behind = vec![0; plan.len()];
    for &place in places {
        in_front[starts[place]] += 1;
        behind[place] += 1;
    }
    let mut longer = Vec::with_capacity(plan.len() + 2 * places.len());
    for (place, &word) in plan.iter().enumerate() {
        longer.resize(longer.len() + in_front[place], action);
        longer.push(word);
        longer.resize(longer.len() + behind[place], PRODUCT);
    }
    longer
}

/// A deep plan or a wide one, of 16,383 words and basic; or of one or two words more.
fn long_plan(random: &mut Random, n: u8, pair: (u8, u8)) -> Vec<u8> {
    let other = random.between(1, n as usize) as u8;
    let mut plan = match random.below(2) {
        0 => long_path(random, pair, other),
        _ => long_sum(random, pair, other),
    };
    let more = random.pick(&[0, 0, 0, 0, 0, 1, 1, 2]);
    plan.resize(plan.len() + more, THETA);
    plan
}

/// One path: first one other action over and over, then the two actions or one of them.
fn long_path(random: &mut Random, (first, second): (u8, u8), other: u8) -> Vec<u8> {
    let most = LONGEST_PLAN / 2;
    let turn = random.pick(&[0, 1, most / 2, most - 2, most - 1]);
    let further = random.pick(&[[first, second], [second, second], [first, other]]);
    let mut plan = vec![other; turn];
    plan.push(random.pick(&[first, second]));
    plan.resize_with(most, || random.pick(&further));
    if turn + 1 < most && random.once_in(4) {
        plan[most - 1] = DEAD_STOP;
    }
    plan.resize(LONGEST_PLAN - 1, PRODUCT);
    plan
}

/// A sum, grouped to the left or to the right: of the first action alone, or of the second
/// behind it, but for a few summands.
fn long_sum(random: &mut Random, (first, second): (u8, u8), other: u8) -> Vec<u8> {
    let (usual, unusual, count) = match random.once_in(3) {
        true => (vec![first], vec![second], LONGEST_PLAN / 2),
        false => {
            let [a, b] = random.pick(&[[second, first], [other, second], [second, DEAD_STOP]]);
            let usual = vec![first, second, PRODUCT];
            (usual, vec![a, b, PRODUCT], LONGEST_PLAN / 4)
        }
    };
    let mut summands = vec![usual; count];
    for _ in 0..random.pick(&[0, 1, 1, 5]) {
        let anywhere = random.below(count);
        summands[random.pick(&[0, anywhere, count - 1])] = unusual.clone();
    }
    if random.once_in(2) {
        return [summands.concat(), vec![CHOICE; count - 1]].concat();
    }
    for summand in &mut summands[1..] {
        summand.push(CHOICE);
    }
    summands.concat()
}
