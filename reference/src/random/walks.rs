//! Random walks: basic plans that repeat their actions, marks as a walk leaves them and any
//! others, messages on a path and off it, and whole cases.

use super::plans::{any_plan, damaged_plan, repeating_basic_plan};
use super::tables::{damaged_tables, lawful_tables, lawful_tables_over};
use super::Random;
use crate::plans::{is_basic, judge, operands, starts, LONGEST_PLAN, PRODUCT};
use crate::refusals::Refusal;
use crate::tables::{trial_tables, DEAD_STOP, MOST_ACTIONS};
use crate::walks::{branches, fresh_walk, walk, Branch};

/// What is handed to the call that begins a walk.
#[derive(Clone, Debug)]
pub struct FreshWalkCase {
    /// The tables.
    pub tables: Vec<u8>,
    /// The plan.
    pub plan: Vec<u8>,
    /// The marks, with the bytes they have before.
    pub marks: Vec<u8>,
    /// Whether a finish is reached before.
    pub finished: bool,
}

/// What is handed to the call that takes a message.
#[derive(Clone, Debug)]
pub struct WalkCase {
    /// The tables.
    pub tables: Vec<u8>,
    /// The plan.
    pub plan: Vec<u8>,
    /// The marks, with the bytes they have before.
    pub marks: Vec<u8>,
    /// The message.
    pub message: u8,
    /// Whether a finish is reached before.
    pub finished: bool,
}

/// A walk and the messages that it is handed, one by one.
#[derive(Clone, Debug)]
pub struct MessagesCase {
    /// How the walk begins.
    pub fresh: FreshWalkCase,
    /// The messages.
    pub messages: Vec<u8>,
}

/// What either call answers, and the progress afterwards.
#[derive(Clone, Debug, PartialEq, Eq)]
pub struct Walked {
    /// Nothing more than that it was done, or the refusal.
    pub answer: Result<(), Refusal>,
    /// The marks.
    pub marks: Vec<u8>,
    /// Whether a finish is reached.
    pub finished: bool,
}

impl FreshWalkCase {
    /// Begins the walk, leaving the case as it is.
    pub fn run(&self) -> Walked {
        let (mut marks, mut finished) = (self.marks.clone(), self.finished);
        let answer = fresh_walk(&self.tables, &self.plan, &mut marks, &mut finished);
        Walked {
            answer,
            marks,
            finished,
        }
    }
}

impl WalkCase {
    /// Hands the message to the walk, leaving the case as it is.
    pub fn run(&self) -> Walked {
        let (mut marks, mut finished) = (self.marks.clone(), self.finished);
        let answer = walk(
            &self.tables,
            &self.plan,
            &mut marks,
            self.message,
            &mut finished,
        );
        Walked {
            answer,
            marks,
            finished,
        }
    }
}

impl MessagesCase {
    /// Begins the walk and hands it all messages, also those behind a refusal. The first outcome
    /// is that of the beginning.
    pub fn run(&self) -> Vec<Walked> {
        let mut outcomes = vec![self.fresh.run()];
        for &message in &self.messages {
            let before = outcomes.last().expect("a walk has a beginning");
            outcomes.push(self.after(before, message).run());
        }
        outcomes
    }

    /// The case of one of the messages.
    fn after(&self, before: &Walked, message: u8) -> WalkCase {
        WalkCase {
            tables: self.fresh.tables.clone(),
            plan: self.fresh.plan.clone(),
            marks: before.marks.clone(),
            message,
            finished: before.finished,
        }
    }
}

/// Lengths of marks worth trying whatever the plan.
const MARKS_EDGES: [usize; 6] = [0, 0, 1, LONGEST_PLAN - 1, LONGEST_PLAN, LONGEST_PLAN + 1];

/// A case for the call that begins a walk: mostly with accepted tables, a basic plan and marks of
/// its length.
pub fn fresh_walk_case(random: &mut Random) -> FreshWalkCase {
    let (tables, plan) = tables_and_plan(random);
    fresh_walk_case_of(random, tables, plan)
}

/// A case for the call that begins a walk of this plan with these tables, accepted or not.
pub fn fresh_walk_case_of(random: &mut Random, tables: Vec<u8>, plan: Vec<u8>) -> FreshWalkCase {
    let length = marks_length(random, &plan);
    FreshWalkCase {
        tables,
        plan,
        marks: random.lent(length),
        finished: random.once_in(2),
    }
}

/// A case for the call that takes a message: mostly with accepted tables, a basic plan, marks of
/// its length and a message that some marked subplan can begin with.
pub fn walk_case(random: &mut Random) -> WalkCase {
    let (tables, plan) = tables_and_plan(random);
    walk_case_of(random, tables, plan)
}

/// A case for the call that takes a message of this plan with these tables, accepted or not.
pub fn walk_case_of(random: &mut Random, tables: Vec<u8>, plan: Vec<u8>) -> WalkCase {
    let length = marks_length(random, &plan);
    let fits = judge(&tables, &plan).is_ok() && is_basic(&plan) && length == plan.len();
    let (marks, ways) = match fits {
        true => {
            let marks = any_marks(random, &tables, &plan);
            let ways = ways(&plan, &marks);
            (marks, ways)
        }
        false => (random.lent(length), Vec::new()),
    };
    WalkCase {
        message: any_message(random, count(&tables), &ways),
        tables,
        plan,
        marks,
        finished: random.once_in(2),
    }
}

/// A walk and its messages: mostly a path of the plan's tree, at times left and taken up again.
pub fn messages_case(random: &mut Random) -> MessagesCase {
    let (tables, plan) = tables_and_plan(random);
    let mut case = MessagesCase {
        fresh: fresh_walk_case_of(random, tables, plan),
        messages: Vec::new(),
    };
    let mut reached = case.fresh.run();
    for _ in 0..random.between(1, 8) {
        let ways = match reached.answer.is_err_and(|refusal| refusal.number <= 70) {
            true => Vec::new(),
            false => ways(&case.fresh.plan, &reached.marks),
        };
        let message = any_message(random, count(&case.fresh.tables), &ways);
        reached = case.after(&reached, message).run();
        case.messages.push(message);
    }
    case
}

/// Mostly accepted tables and a basic plan; sometimes one of them is damaged, or both.
pub fn tables_and_plan(random: &mut Random) -> (Vec<u8>, Vec<u8>) {
    let tables = match random.below(10) {
        0 => damaged_tables(random),
        1 | 2 => trial_tables(),
        3 => lawful_tables(random),
        _ => {
            let n = random.pick(&[1, 2, 2, 3, 3, 4, 5, 30, 31]);
            lawful_tables_over(random, n)
        }
    };
    let n = count(&tables);
    let plan = match random.below(16) {
        0 => damaged_plan(random, n),
        1 => any_plan(random, n),
        2 => nearly_basic_plan(random, n),
        _ => walked_plan(random, n),
    };
    (tables, plan)
}

/// The count of actions, also where it is damaged or not there.
pub fn count(tables: &[u8]) -> u8 {
    tables.first().copied().unwrap_or(1).clamp(1, MOST_ACTIONS)
}

/// A basic plan over n actions of any size, mostly a small one.
pub fn walked_plan(random: &mut Random, n: u8) -> Vec<u8> {
    let actions = match random.below(64) {
        0 => random.pick(&[1000, 4096, LONGEST_PLAN / 2 - 1, LONGEST_PLAN / 2]),
        1..=6 => random.between(1, 60),
        7..=20 => random.between(1, 3),
        _ => random.between(2, 16),
    };
    repeating_basic_plan(random, n, actions)
}

/// A basic plan with another word somewhere; by chance, it is still basic.
pub fn nearly_basic_plan(random: &mut Random, n: u8) -> Vec<u8> {
    let mut plan = walked_plan(random, n);
    let at = random.below(plan.len());
    plan[at] = match operands(plan[at]) {
        0 => random.pick(&[DEAD_STOP, 1, n]),
        _ => random.pick(&[64, 65, 66, 68, 69]),
    };
    plan
}

/// A length for marks, mostly that of the plan.
fn marks_length(random: &mut Random, plan: &[u8]) -> usize {
    match random.below(10) {
        0 => random.near(plan.len(), &MARKS_EDGES),
        _ => plan.len(),
    }
}

/// Marks for a basic plan: mostly as a walk leaves them, with any bytes for the marks.
pub fn any_marks(random: &mut Random, tables: &[u8], plan: &[u8]) -> Vec<u8> {
    let mut marks = match random.below(10) {
        0 => return random.lent(plan.len()),
        1 => first_factors(random, plan),
        2 | 3 => any_places(random, plan),
        _ => marks_on_the_way(random, tables, plan),
    };
    if random.once_in(2) {
        for mark in marks.iter_mut().filter(|mark| **mark != 0) {
            *mark = random.pick(&[1, 2, 64, 127, 128, 254, 255]);
        }
    }
    marks
}

/// Marks as a walk over a few messages leaves them.
fn marks_on_the_way(random: &mut Random, tables: &[u8], plan: &[u8]) -> Vec<u8> {
    let (mut marks, mut finished) = (vec![0; plan.len()], false);
    marks[plan.len() - 1] = 1;
    for _ in 0..random.below(5) {
        let ways = ways(plan, &marks);
        let further = ways.iter().filter(|(_, leads_to)| leads_to.is_some());
        let further: Vec<Branch> = further.copied().collect();
        // A walk that can only finish seldom does: no mark would be left.
        let ways = match further.is_empty() {
            true if !ways.is_empty() && random.once_in(4) => ways,
            _ => further,
        };
        if ways.is_empty() {
            break;
        }
        let (message, _) = random.pick(&ways);
        let taken = walk(tables, plan, &mut marks, message, &mut finished);
        debug_assert_eq!(taken, Ok(()));
    }
    marks
}

/// Marks at some of the first factors of a basic plan's products, which no walk from a fresh one
/// marks, and at a few other places.
fn first_factors(random: &mut Random, plan: &[u8]) -> Vec<u8> {
    let mut marks = vec![0; plan.len()];
    let starts = starts(plan);
    let (rarity, others) = (random.pick(&[1, 2, 5]), random.pick(&[4, 1000]));
    for (place, &word) in plan.iter().enumerate() {
        // The first factor is one action, so it stands where its product starts.
        if word == PRODUCT && random.once_in(rarity) {
            marks[starts[place]] = 1;
        }
        if random.once_in(others) {
            marks[place] = 1;
        }
    }
    marks
}

/// Marks at any places: none, one, some or all.
fn any_places(random: &mut Random, plan: &[u8]) -> Vec<u8> {
    let mut marks = vec![0; plan.len()];
    match random.below(8) {
        0 => {}
        1..=3 => marks[random.below(plan.len())] = 1,
        _ => {
            let rarity = random.pick(&[1, 2, 4, 20]);
            marks.fill_with(|| random.once_in(rarity) as u8);
        }
    }
    marks
}

/// The branches of all marked subplans.
fn ways(plan: &[u8], marks: &[u8]) -> Vec<Branch> {
    branches(plan, marks).into_iter().collect()
}

/// A message, mostly of one of these branches; else an action of 1 to n, dead stop or any byte.
fn any_message(random: &mut Random, n: u8, ways: &[Branch]) -> u8 {
    match random.below(14) {
        0 => DEAD_STOP,
        1 => random.pick(&[n + 1, n + 1, 32, 64, 65, 255]),
        2 => random.byte(),
        3 | 4 => random.between(1, n as usize) as u8,
        _ if ways.is_empty() => random.between(1, n as usize) as u8,
        _ => random.pick(ways).0,
    }
}
