//! Random plans to be brought to their fixed form: with equal summands, with remainders that are
//! equal only in form, with a summand that begins another, and drawn anew in another way; and whole
//! cases.

use super::cases::AREA_EDGES;
use super::plans::{repeating_basic_plan, NOT_BASIC};
use super::walks::{count, tables_and_plan};
use super::Random;
use crate::forms::{fix_form, form};
use crate::plans::{is_basic, judge, starts, CHOICE, LONGEST_PLAN, PRODUCT, THETA};
use crate::refusals::Refusal;
use crate::tables::DEAD_STOP;

/// What is handed to the call that brings a plan to its fixed form.
#[derive(Clone, Debug)]
pub struct FormCase {
    /// The tables.
    pub tables: Vec<u8>,
    /// The plan.
    pub plan: Vec<u8>,
    /// The form's area, with the bytes it has before.
    pub area: Vec<u8>,
}

/// What the call answers, and the lent bytes afterwards.
#[derive(Clone, Debug, PartialEq, Eq)]
pub struct FormFixed {
    /// The form's length, or the refusal.
    pub answer: Result<usize, Refusal>,
    /// The form's area.
    pub area: Vec<u8>,
}

impl FormCase {
    /// Brings the plan to its form, leaving the case as it is.
    pub fn run(&self) -> FormFixed {
        let mut area = self.area.clone();
        let answer = fix_form(&self.tables, &self.plan, &mut area);
        FormFixed { answer, area }
    }

    /// Whether tables and plan are accepted and the plan is basic.
    fn has_form(&self) -> bool {
        judge(&self.tables, &self.plan).is_ok() && is_basic(&self.plan)
    }
}

/// A case for the call: mostly with accepted tables and a basic plan, and an area as long as the
/// form or close to it. Where no form is made the area is close to the plan instead, so that one
/// that is too short also comes with the other refusals.
pub fn form_case(random: &mut Random) -> FormCase {
    let (tables, drawn) = tables_and_plan(random);
    let n = count(&tables);
    let mut case = FormCase {
        tables,
        plan: drawn,
        area: Vec::new(),
    };
    if case.has_form() {
        case.plan = match random.below(24) {
            0 => long_plan(random, n),
            1 | 2 => not_basic_plan(random, n, &case.plan),
            3..=7 => case.plan,
            _ => basic_plan(random, n, &case.plan),
        };
    }
    let words = match case.has_form() {
        true => form(&case.plan).len(),
        false => case.plan.len(),
    };
    let length = area_length(random, words, case.plan.len());
    case.area = random.lent(length);
    case
}

/// The length of an area for a form of so many words, and for a plan of so many.
fn area_length(random: &mut Random, form: usize, plan: usize) -> usize {
    match random.below(20) {
        0..=2 => form.saturating_sub(1),
        3 => random.below(form.max(1)),
        4 => 0,
        5 => random.pick(&AREA_EDGES),
        6 | 7 => form + 1,
        8 => form + random.below(40),
        9..=11 => random.between(form, plan),
        12 => plan.saturating_sub(1),
        13 => plan,
        14 => plan + random.below(3),
        15 => LONGEST_PLAN + random.below(40),
        _ => form,
    }
}

/// A basic plan of one of several kinds, the plan given among them; some of them drawn anew, and
/// some in form already.
fn basic_plan(random: &mut Random, n: u8, plan: &[u8]) -> Vec<u8> {
    let made = match random.below(9) {
        0 | 1 => equal_summands(random, n),
        2 | 3 => equal_in_form(random, n),
        4 | 5 => beginnings(random, n),
        6 => tiny_plan(random, n),
        _ => plan.to_vec(),
    };
    match random.below(8) {
        0 => form(&made),
        1..=4 => redrawn(random, &made),
        _ => made,
    }
}

/// Dead stop, an action, or an action before dead stop.
fn tiny_plan(random: &mut Random, n: u8) -> Vec<u8> {
    let a = live_action(random, n);
    random.pick(&[vec![DEAD_STOP], vec![a], vec![a, DEAD_STOP, PRODUCT]])
}

/// An action other than dead stop; the last one more often.
fn live_action(random: &mut Random, n: u8) -> u8 {
    match random.once_in(6) {
        true => n,
        false => random.between(1, n as usize) as u8,
    }
}

/// A small basic plan that repeats its actions.
fn small_plan(random: &mut Random, n: u8, most: usize) -> Vec<u8> {
    let actions = random.between(1, most);
    repeating_basic_plan(random, n, actions)
}

/// A small summand: an action, or one before a small plan.
fn small_summand(random: &mut Random, n: u8) -> Vec<u8> {
    let a = live_action(random, n);
    match random.once_in(3) {
        true => vec![a],
        false => before(a, &small_plan(random, n, 3)),
    }
}

/// a · x.
fn before(a: u8, x: &[u8]) -> Vec<u8> {
    [&[a], x, &[PRODUCT]].concat()
}

/// A sum of many summands with few different ones; sometimes behind an action.
fn equal_summands(random: &mut Random, n: u8) -> Vec<u8> {
    let different = random.between(1, 4);
    let few: Vec<Vec<u8>> = (0..different).map(|_| small_summand(random, n)).collect();
    let many = random.between(2, 30);
    let summands = (0..many).map(|_| random.pick(&few)).collect();
    let sum = any_sum(random, summands);
    match random.once_in(4) {
        true => before(live_action(random, n), &sum),
        false => sum,
    }
}

/// A sum in which one action stands before one plan drawn in several ways, so that some summands
/// are equal in form alone; this over again with the sum as the plan.
fn equal_in_form(random: &mut Random, n: u8) -> Vec<u8> {
    let mut plan = small_plan(random, n, 8);
    for _ in 0..random.between(1, 3) {
        let a = live_action(random, n);
        let ways = random.between(2, 4);
        let mut summands: Vec<Vec<u8>> = (0..ways)
            .map(|_| before(a, &redrawn(random, &plan)))
            .collect();
        while random.once_in(3) {
            summands.push(small_summand(random, n));
        }
        plan = any_sum(random, summands);
    }
    plan
}

/// A sum of summands that begin with one action, alone and before others: their first bytes are the
/// same, and the action alone begins the others.
fn beginnings(random: &mut Random, n: u8) -> Vec<u8> {
    let [a, b, c] = [(); 3].map(|_| live_action(random, n));
    let all: [&[u8]; 9] = [
        &[a],
        &[b],
        &[a, DEAD_STOP, PRODUCT],
        &[a, b, PRODUCT],
        &[a, c, PRODUCT],
        &[a, b, c, PRODUCT, PRODUCT],
        &[a, b, c, CHOICE, PRODUCT],
        &[a, b, b, c, PRODUCT, CHOICE, PRODUCT],
        &[a, b, DEAD_STOP, PRODUCT, PRODUCT],
    ];
    let count = random.between(2, 9);
    let summands = (0..count).map(|_| random.pick(&all).to_vec()).collect();
    any_sum(random, summands)
}

/// A plan that is not basic for one reason: one of the small ones, alone or as a remainder or as a
/// summand; or the plan given, under a sign that no basic plan has.
fn not_basic_plan(random: &mut Random, n: u8, plan: &[u8]) -> Vec<u8> {
    let small: &[u8] = match n {
        // The small ones have three actions.
        0..3 => &[1, THETA],
        _ => random.pick(&NOT_BASIC),
    };
    match random.below(5) {
        0 => small.to_vec(),
        1 => before(live_action(random, n), small),
        2 => [plan, small, &[CHOICE]].concat(),
        3 => [small, plan, &[CHOICE]].concat(),
        _ => [plan, &[THETA]].concat(),
    }
}

/// The sum of these summands in any order, grouped to the left, to the right or in any way.
fn any_sum(random: &mut Random, mut summands: Vec<Vec<u8>>) -> Vec<u8> {
    for index in (1..summands.len()).rev() {
        summands.swap(index, random.below(index + 1));
    }
    // How seldom the last two of the waiting ones are joined before the next summand comes: always,
    // which groups to the left, or never, which groups to the right.
    let rarity = random.pick(&[1, 1, 2, 3, 1_000_000]);
    let (mut sum, mut waiting) = (Vec::new(), 0);
    for summand in summands {
        sum.extend(summand);
        waiting += 1;
        while waiting > 1 && random.once_in(rarity) {
            sum.push(CHOICE);
            waiting -= 1;
        }
    }
    sum.resize(sum.len() + waiting - 1, CHOICE);
    sum
}

/// How many words a plan drawn anew has more than the plan, at most.
const MOST_MORE: usize = 60;

/// The same basic plan drawn in another way: summands in another order, in other groups and some
/// of them more than once, in every remainder too.
pub fn redrawn(random: &mut Random, plan: &[u8]) -> Vec<u8> {
    let mut spare = MOST_MORE.min(LONGEST_PLAN.saturating_sub(plan.len()));
    // The summands of each subplan, drawn anew.
    let mut waiting: Vec<Vec<Vec<u8>>> = Vec::new();
    for &word in plan {
        let mut operand = || waiting.pop().expect("an accepted plan has the operands");
        let summands = match word {
            CHOICE => {
                let (mut y, mut x) = (operand(), operand());
                // The order is any, so the fewer are put behind the others.
                if x.len() < y.len() {
                    (x, y) = (y, x);
                }
                x.extend(y);
                x
            }
            PRODUCT => {
                let (x, a) = (operand(), operand());
                let x = drawn_sum(random, x, &mut spare);
                vec![[a.concat(), x, vec![PRODUCT]].concat()]
            }
            action => vec![vec![action]],
        };
        waiting.push(summands);
    }
    let whole = waiting.pop().expect("an accepted plan is not empty");
    drawn_sum(random, whole, &mut spare)
}

/// The sum of these summands, some of them more than once as long as words are to spare; dead stop
/// is no summand, and stays alone.
fn drawn_sum(random: &mut Random, mut summands: Vec<Vec<u8>>, spare: &mut usize) -> Vec<u8> {
    while summands[0] != [DEAD_STOP] && random.once_in(3) {
        let again = random.pick(&summands);
        match spare.checked_sub(again.len() + 1) {
            Some(left) => *spare = left,
            None => break,
        }
        summands.push(again);
    }
    any_sum(random, summands)
}

/// A basic plan with one change, which mostly gives it another tree: one summand of two alone, a
/// first action shared out over a choice, a remainder gone or turned into dead stop, a dead stop
/// turned into an action, an action turned into another one or with dead stop behind it.
pub fn altered(random: &mut Random, n: u8, plan: &[u8]) -> Vec<u8> {
    let starts = starts(plan);
    let place = random.below(plan.len());
    let start = starts[place];
    let other = live_action(random, n);
    let changed = match plan[place] {
        CHOICE => {
            let y = starts[place - 1];
            random.pick(&[&plan[start..y], &plan[y..place]]).to_vec()
        }
        PRODUCT if plan[place - 1] == CHOICE => {
            let (a, y) = (plan[start], starts[place - 2]);
            let x = &plan[start + 1..y];
            [before(a, x), before(a, &plan[y..place - 1]), vec![CHOICE]].concat()
        }
        PRODUCT => random.pick(&[vec![plan[start]], before(plan[start], &[DEAD_STOP])]),
        DEAD_STOP => vec![other],
        // A first factor has no dead stop put behind it: the plan would not be basic.
        a => match (place..plan.len()).any(|p| plan[p] == PRODUCT && starts[p] == place) {
            false if random.once_in(2) => before(a, &[DEAD_STOP]),
            _ => vec![other],
        },
    };
    let altered = [&plan[..start], &changed, &plan[place + 1..]].concat();
    match altered.len() > LONGEST_PLAN {
        true => plan.to_vec(),
        false => altered,
    }
}

/// A deep plan or a wide one, of about 16,383 words and basic; or of one or two words more.
fn long_plan(random: &mut Random, n: u8) -> Vec<u8> {
    let [a, b, c] = [(); 3].map(|_| live_action(random, n));
    let mut plan = match random.below(4) {
        0 => long_path(random, a, b),
        1 => long_comb(random, [a, b, c]),
        2 => {
            let summands = (0..LONGEST_PLAN / 2).map(|_| vec![live_action(random, n)]);
            let summands = summands.collect();
            any_sum(random, summands)
        }
        _ => {
            let pairs = (0..LONGEST_PLAN / 4).map(|_| {
                let x = [random.below(n as usize + 1) as u8];
                before(live_action(random, n), &x)
            });
            let summands = pairs.collect();
            any_sum(random, summands)
        }
    };
    if plan.len() == LONGEST_PLAN - 1 {
        let more = random.pick(&[0, 0, 0, 0, 0, 1, 1, 2]);
        plan.resize(plan.len() + more, THETA);
    }
    plan
}

/// One path of two actions.
fn long_path(random: &mut Random, a: u8, b: u8) -> Vec<u8> {
    let most = LONGEST_PLAN / 2;
    let mut plan: Vec<u8> = (1..most).map(|_| random.pick(&[a, b])).collect();
    plan.push(random.pick(&[a, b, DEAD_STOP]));
    plan.resize(LONGEST_PLAN - 1, PRODUCT);
    plan
}

/// a·(a·(… + b) + b) with a·(b + a·(b + …)) inside, down to c·c: a sum in every remainder.
fn long_comb(random: &mut Random, [a, b, c]: [u8; 3]) -> Vec<u8> {
    let levels = LONGEST_PLAN / 4 - 1;
    let outer = random.below(levels + 1);
    let (mut plan, mut behind) = (Vec::new(), Vec::new());
    for level in 0..levels {
        // In a·(x + b) the b stands behind x, in a·(b + x) it stands before.
        match level < outer {
            true => {
                plan.push(a);
                behind.push([b, CHOICE, PRODUCT].to_vec());
            }
            false => {
                plan.extend([a, b]);
                behind.push([CHOICE, PRODUCT].to_vec());
            }
        }
    }
    plan.extend([c, c, PRODUCT]);
    plan.extend(behind.into_iter().rev().flatten());
    plan
}

/// The case with its plan drawn in another way, and an area that holds the form exactly or is a
/// little longer: the form is the same. None where no form is made, whatever the area.
pub fn redrawn_case(random: &mut Random, case: &FormCase) -> Option<FormCase> {
    case.has_form().then(|| {
        let plan = redrawn(random, &case.plan);
        with_plan(random, case, plan)
    })
}

/// The case with one change in its plan, which is then drawn in another way, and an area that holds
/// the form exactly or is a little longer: mostly the form is another one, and exactly so where the
/// trees are not alike. None where no form is made, whatever the area.
pub fn altered_case(random: &mut Random, case: &FormCase) -> Option<FormCase> {
    case.has_form().then(|| {
        let altered = altered(random, count(&case.tables), &case.plan);
        let plan = redrawn(random, &altered);
        with_plan(random, case, plan)
    })
}

/// The case with another plan, a basic one, and an area that holds its form.
fn with_plan(random: &mut Random, case: &FormCase, plan: Vec<u8>) -> FormCase {
    let length = form(&plan).len() + random.below(3);
    FormCase {
        tables: case.tables.clone(),
        plan,
        area: random.lent(length),
    }
}
