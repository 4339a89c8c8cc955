//! Calls to measure: plans to unfold, rewritings to replay, texts to read, messages to walks, plans
//! to judge, paths to count, actions to come before others, plans to bring to their fixed form, and
//! station files to write and to read.

mod forms;
mod replays;

pub use forms::{forms, Fixing};
pub use replays::{exchanges, exchanges_back, lists, long_sum, Replay};

use crate::contenders::{Ask, Contender, Ended, PLAIN};
use reference::plans::{
    CHOICE, ENCAPSULATION, LAST_ENCAPSULATION, LONGEST_PLAN, MERGE, PRODUCT, THETA, UNLESS,
};
use reference::random::plans::{plan, small_plan};
use reference::random::Random;
use reference::runs::reached;
use reference::stations::{read_station, station_file, BLOCK, CONTENT};
use reference::tables::{
    actions, entry, trial_tables, COMMUNICATION, DEAD_STOP, PRIORITY, SETS, TABLES_LENGTH,
};
use reference::texts::{typed, DEEPEST};
use reference::unfolding::record;

/// The lengths of areas measured, doubling up to the longest plan.
pub fn sizes() -> impl Iterator<Item = usize> {
    (8..)
        .map(|power| 1 << power)
        .take_while(|&size| size <= LONGEST_PLAN)
}

/// What stands in the lent bytes before a call whose outcome is compared: no zeros, so that
/// zeros must have been written.
const UNTOUCHED: u8 = 0xA5;

/// A call with what it is lent.
pub trait Workload {
    /// Makes the call.
    fn run(&mut self, contender: Contender) -> Ended;

    /// All lent bytes.
    fn lent(&mut self) -> Vec<&mut [u8]>;

    /// How the call ends, and every lent byte then.
    fn outcome(&mut self, contender: Contender) -> (Ended, Vec<Vec<u8>>) {
        for bytes in self.lent() {
            bytes.fill(UNTOUCHED);
        }
        let ended = self.run(contender);
        let bytes = self.lent().into_iter().map(|bytes| bytes.to_vec());
        (ended, bytes.collect())
    }
}

/// A plan to unfold, and what is lent.
pub struct Unfolding {
    /// The tables.
    pub tables: Vec<u8>,
    /// The plan.
    pub plan: Vec<u8>,
    /// The plan that its unfolding ends in.
    pub reached: Vec<u8>,
    /// The steps until then.
    pub steps: usize,
    /// The steps allowed.
    pub allowance: u32,
    list: Vec<u8>,
    a: Vec<u8>,
    b: Vec<u8>,
}

/// More steps than any of the unfoldings takes.
const MOST_STEPS: usize = 1_000_000;

impl Unfolding {
    /// A plan with areas of this length, if its unfolding finishes there. The list has no room
    /// for a step more.
    pub fn within(tables: Vec<u8>, plan: Vec<u8>, area: usize) -> Option<Unfolding> {
        let mut unfolding = Unfolding {
            tables,
            plan,
            reached: Vec::new(),
            steps: 0,
            allowance: u32::MAX,
            list: vec![0; 3 * MOST_STEPS],
            a: vec![0; area],
            b: vec![0; area],
        };
        let (number, steps, size) = unfolding.run(PLAIN);
        unfolding.reached = reached(&unfolding.a, &unfolding.b, steps, size).to_vec();
        unfolding.steps = steps;
        unfolding.list.truncate(3 * steps);
        (number == 0).then_some(unfolding)
    }

    /// The same call with a plan of one action: no step is made, and all that comes before and
    /// after the steps is.
    pub fn without_steps(&self) -> Unfolding {
        single_action(self.tables.clone(), self.a.len())
    }
}

impl Workload for Unfolding {
    fn run(&mut self, contender: Contender) -> Ended {
        let (list, a, b) = (&mut self.list, &mut self.a, &mut self.b);
        (contender.unfold)(&self.tables, &self.plan, self.allowance, list, a, b)
    }

    fn lent(&mut self) -> Vec<&mut [u8]> {
        vec![&mut self.list, &mut self.a, &mut self.b]
    }
}

/// A plan of one action, which takes no step, with areas of this length.
pub fn single_action(tables: Vec<u8>, area: usize) -> Unfolding {
    let unfolding = Unfolding::within(tables, vec![1], area);
    unfolding.expect("an action is basic")
}

/// A merge of two chains of actions, with signs around it.
#[derive(Clone, Copy, Debug)]
pub struct Merge {
    /// What the table calls it.
    pub name: &'static str,
    /// The action of the first chain and of the second.
    actions: (u8, u8),
    /// The signs around the merge, the inner one first.
    signs: &'static [u8],
}

/// The merges measured, over the tables of the trial trays. Set 0 blocks 1 and 2, which
/// communicate; 1 is below 4.
pub const MERGES: [Merge; 4] = [
    Merge {
        name: "x‖y",
        actions: (1, 2),
        signs: &[],
    },
    Merge {
        name: "∂(x‖y)",
        actions: (1, 2),
        signs: &[ENCAPSULATION],
    },
    Merge {
        name: "θ(x‖y)",
        actions: (1, 4),
        signs: &[THETA],
    },
    Merge {
        name: "θ(∂(x‖y))",
        actions: (1, 2),
        signs: &[ENCAPSULATION, THETA],
    },
];

/// A chain: an action so many times, one after the other.
fn chain(action: u8, length: usize) -> Vec<u8> {
    let mut chain = vec![action; length];
    chain.resize(2 * length - 1, PRODUCT);
    chain
}

/// The merge of a chain of one action and a chain of another.
fn merged(actions: (u8, u8), first: usize, second: usize) -> Vec<u8> {
    let mut plan = chain(actions.0, first);
    plan.extend(chain(actions.1, second));
    plan.push(MERGE);
    plan
}

impl Merge {
    /// The plan with so many actions in the two chains.
    pub fn plan(&self, first: usize, second: usize) -> Vec<u8> {
        let mut plan = merged(self.actions, first, second);
        plan.extend(self.signs);
        plan
    }

    /// The longest second chain, and the unfolding with it, that finishes in areas of this
    /// length.
    pub fn longest(&self, first: usize, area: usize) -> (usize, Unfolding) {
        let within = |second| {
            let plan = self.plan(first, second);
            Some((second, Unfolding::within(trial_tables(), plan, area)?))
        };
        let found = (1..).map_while(within).last();
        found.expect("two short chains unfold in every area measured")
    }
}

/// A sum of terms, each added to those before it.
fn sum(terms: impl Iterator<Item = Vec<u8>>) -> Vec<u8> {
    let mut plan = Vec::new();
    for (index, term) in terms.enumerate() {
        plan.extend(term);
        plan.extend((index > 0).then_some(CHOICE));
    }
    plan
}

/// For each of some lengths of two chains, and for each pair of different actions, δ·(x‖y); all
/// in a sum. The merges are unfolded one after another, and the dead stops leave nothing of
/// them. So there are more steps than a plan of this length could otherwise have.
pub fn stopped_merges(chains: &[(usize, usize)]) -> Unfolding {
    let pairs = (1..=4).flat_map(|a| (1..=4).map(move |b| (a, b)));
    let pairs = pairs.filter(|(a, b)| a != b);
    let stopped = |(pair, &(first, second))| {
        let merge = merged(pair, first, second);
        [vec![DEAD_STOP], merge, vec![PRODUCT]].concat()
    };
    let each = pairs.flat_map(|pair| chains.iter().map(move |lengths| (pair, lengths)));
    let plan = sum(each.map(stopped));
    let unfolding = Unfolding::within(trial_tables(), plan, LONGEST_PLAN);
    unfolding.expect("merges of these chains unfold in the longest areas")
}

/// Chains whose merges unfold in the longest areas, not by far: one pair of them, and three.
pub const STOPPED_CHAINS: [&[(usize, usize)]; 2] = [&[(4, 7)], &[(4, 7), (3, 10), (5, 5)]];

/// The senders, the receivers, and what they do together, in the tables for sums.
const SENDERS: u8 = 14;
const RECEIVERS: u8 = 14;
const TOGETHER: u8 = 31;

/// Tables with 31 actions. Each sender communicates with each receiver; set 0 blocks both; only
/// dead stop is below another action.
pub fn sum_tables() -> Vec<u8> {
    let mut tables = vec![0; TABLES_LENGTH];
    tables[0] = TOGETHER;
    for a in 1..=SENDERS {
        for b in SENDERS + 1..=SENDERS + RECEIVERS {
            tables[COMMUNICATION + entry(a, b)] = TOGETHER;
            tables[COMMUNICATION + entry(b, a)] = TOGETHER;
        }
    }
    for a in 1..=TOGETHER {
        tables[PRIORITY + entry(0, a)] = 1;
    }
    for a in 1..=SENDERS + RECEIVERS {
        tables[SETS + entry(0, a)] = 1;
    }
    tables
}

/// One of many different small plans ∂((a·c)‖b), with a sender a and a receiver b.
fn small(index: usize) -> Vec<u8> {
    let (senders, receivers) = (usize::from(SENDERS), usize::from(RECEIVERS));
    let a = 1 + index % senders;
    let b = 1 + senders + index / senders % receivers;
    let c = 1 + index / (senders * receivers);
    let (a, b, c) = (a as u8, b as u8, c as u8);
    vec![a, c, PRODUCT, b, MERGE, ENCAPSULATION]
}

/// The longest sum of small plans, all of them different, whose unfolding finishes in areas of
/// this length; and how many they are.
pub fn longest_sum(area: usize) -> (usize, Unfolding) {
    let most = area / (small(0).len() + 1);
    let within = |count| {
        let plan = sum((0..count).map(small));
        Some((count, Unfolding::within(sum_tables(), plan, area)?))
    };
    let found = (1..=most).rev().find_map(within);
    found.expect("a small plan unfolds in every area measured")
}

/// The actions of the first chain where the areas grow, and where they are the longest.
const SHORT_CHAIN: usize = 2;
const LONG_CHAINS: [usize; 3] = [3, 4, 5];

/// The merges in growing areas, each with the cells that name it: plan and areas.
pub fn merges_in_growing_areas() -> impl Iterator<Item = (String, Unfolding)> {
    let each = MERGES
        .into_iter()
        .flat_map(|merge| sizes().map(move |area| (merge, area)));
    each.map(|(merge, area)| {
        let (_, unfolding) = merge.longest(SHORT_CHAIN, area);
        (format!("{} | {area}", merge.name), unfolding)
    })
}

/// The merges of longer chains in the longest areas, then those after dead stops, each with the
/// cells that name it: plan and chains.
pub fn merges_of_longer_chains() -> impl Iterator<Item = (String, Unfolding)> {
    let each = MERGES
        .into_iter()
        .flat_map(|merge| LONG_CHAINS.map(|first| (merge, first)));
    let merges = each.map(|(merge, first)| {
        let (second, unfolding) = merge.longest(first, LONGEST_PLAN);
        (format!("{} | {first}, {second}", merge.name), unfolding)
    });
    let stopped = STOPPED_CHAINS.into_iter().map(|chains| {
        let each = chains.iter().map(|(x, y)| format!("{x}, {y}"));
        let names = each.collect::<Vec<_>>().join("; ");
        (format!("Σ δ·(x‖y) | {names}"), stopped_merges(chains))
    });
    merges.chain(stopped)
}

/// The sums of small plans in growing areas, each with the cells that name it: areas and small
/// plans.
pub fn growing_sums() -> impl Iterator<Item = (String, Unfolding)> {
    sizes().map(|area| {
        let (count, unfolding) = longest_sum(area);
        (format!("{area} | {count}"), unfolding)
    })
}

/// A text to read, and what is lent.
pub struct Reading {
    tables: Vec<u8>,
    /// The text.
    pub text: Vec<u8>,
    area: Vec<u8>,
}

impl Reading {
    /// A text with an area of this length.
    pub fn new(tables: Vec<u8>, text: &str, area: usize) -> Reading {
        Reading {
            tables,
            text: text.into(),
            area: vec![0; area],
        }
    }

    /// The same call with a text of one character: nearly nothing is read, and all that comes
    /// before and after is done.
    pub fn without_text(&self) -> Reading {
        Reading::new(self.tables.clone(), "1", self.area.len())
    }
}

impl Workload for Reading {
    fn run(&mut self, contender: Contender) -> Ended {
        (contender.read_text)(&self.tables, &self.text, &mut self.area)
    }

    fn lent(&mut self) -> Vec<&mut [u8]> {
        vec![&mut self.area]
    }
}

/// What a bracket has before and behind what is in it.
pub type Bracket = (&'static str, &'static str);

/// Brackets of all kinds, which open in the first sum or the second, in the first product or a
/// later one, and in the first unit or a later one.
const BRACKETS: [Bracket; 9] = [
    ("(", ")"),
    ("T(", ")"),
    ("H7(", ")"),
    ("(", " # 1)"),
    ("(1 [ ", ")"),
    ("(1+", ")"),
    ("(1.", ")"),
    ("T(1+2.", "+3)"),
    ("(1.2+3 | 1+2.", ".3+4)"),
];

/// An action in so many brackets, each within the one before; of those given, one after the other
/// is used.
fn deep_text(brackets: &[Bracket], depth: usize) -> String {
    let levels = || brackets.iter().cycle().take(depth);
    let before: String = levels().map(|(before, _)| *before).collect();
    let mut behind: Vec<&str> = levels().map(|(_, behind)| *behind).collect();
    behind.reverse();
    format!("{before}1{}", behind.concat())
}

/// Texts with an action in so many brackets: for each kind of bracket alone, and for all of them
/// in turns.
pub fn deep_texts(depth: usize) -> Vec<String> {
    let alone = BRACKETS.iter().map(|bracket| deep_text(&[*bracket], depth));
    alone.chain([deep_text(&BRACKETS, depth)]).collect()
}

/// A text of so many words side by side in a sum, as often as a plan can have it.
fn side_by_side(text: &str, words: usize) -> String {
    let count = (LONGEST_PLAN + 1) / (words + 1);
    vec![text; count].join("+")
}

/// The actions from the first to the last, again and again with this sign between them, as many as
/// the longest plan has.
fn actions_joined(first: u8, last: u8, sign: &str) -> String {
    let actions = (first..=last).cycle().take(LONGEST_PLAN / 2);
    let actions: Vec<String> = actions.map(|action| action.to_string()).collect();
    actions.join(sign)
}

/// The words of the plans in the mixed one, at most.
const MIXED: usize = 100;

/// A sum of plans of all sorts, of as many words as a plan may have.
fn mixed_plan(n: u8) -> Vec<u8> {
    let random = &mut Random::new(1);
    let mut whole = small_plan(random, n, MIXED);
    while whole.len() + MIXED + 3 < LONGEST_PLAN {
        whole.extend(small_plan(random, n, MIXED));
        whole.push(CHOICE);
    }
    let rest = LONGEST_PLAN - 1 - whole.len();
    whole.extend(plan(random, n, rest));
    whole.push(CHOICE);
    whole
}

/// The texts measured, each with its name; their plans are as long as can be.
pub fn texts() -> Vec<(&'static str, Reading)> {
    // These four bring six words: one, one, two and two.
    let kinds = [("T(", ")"), ("H0(", ")"), ("(1 # ", ")"), ("(", " < 2)")];
    let deep = deep_text(&kinds, DEEPEST);
    let deep_words = 1 + DEEPEST / 4 * 6;
    let plain = deep_text(&[("(", ")")], DEEPEST);
    let mixed = typed(&mixed_plan(4));
    let mixed = String::from_utf8(mixed).expect("texts are of plain characters");
    let long = |text: &str| Reading::new(trial_tables(), text, LONGEST_PLAN);
    vec![
        ("sum", long(&actions_joined(1, 4, "+"))),
        (
            "sum, two digits",
            Reading::new(sum_tables(), &actions_joined(10, 31, "+"), LONGEST_PLAN),
        ),
        ("product", long(&actions_joined(1, 4, "."))),
        ("deep, all kinds", long(&side_by_side(&deep, deep_words))),
        ("deep, `(s)` alone", long(&side_by_side(&plain, 1))),
        ("typed plans", long(&mixed)),
    ]
}

/// A message to a walk, and what is lent.
pub struct Walking {
    tables: Vec<u8>,
    /// The plan.
    pub plan: Vec<u8>,
    /// The marks that each call finds.
    given: Vec<u8>,
    message: u8,
    marks: Vec<u8>,
}

/// Which words of a plan are marked.
#[derive(Clone, Copy, Debug, PartialEq, Eq)]
pub enum Marks {
    /// The last one, as in a fresh walk.
    One,
    /// All of them.
    All,
}

impl Walking {
    /// A message to a walk of this plan.
    pub fn new(tables: Vec<u8>, plan: Vec<u8>, marks: Marks, message: u8) -> Walking {
        let mut given = vec![u8::from(marks == Marks::All); plan.len()];
        given[plan.len() - 1] = 1;
        let marks = given.clone();
        Walking {
            tables,
            plan,
            given,
            message,
            marks,
        }
    }

    /// The beginning of a walk of the same plan: it judges as a message does, by the same code, and
    /// then sets the marks alone.
    pub fn beginning(&self) -> Beginning {
        Beginning {
            tables: self.tables.clone(),
            plan: self.plan.clone(),
            marks: self.given.clone(),
        }
    }
}

impl Workload for Walking {
    fn run(&mut self, contender: Contender) -> Ended {
        self.marks.copy_from_slice(&self.given);
        (contender.walk)(&self.tables, &self.plan, &mut self.marks, self.message)
    }

    fn lent(&mut self) -> Vec<&mut [u8]> {
        vec![&mut self.marks]
    }
}

/// A walk to begin, and what is lent.
pub struct Beginning {
    tables: Vec<u8>,
    plan: Vec<u8>,
    marks: Vec<u8>,
}

impl Workload for Beginning {
    fn run(&mut self, contender: Contender) -> Ended {
        (contender.fresh_walk)(&self.tables, &self.plan, &mut self.marks)
    }

    fn lent(&mut self) -> Vec<&mut [u8]> {
        vec![&mut self.marks]
    }
}

/// The lengths of the plans that are walked, beside that of the bench: the last is that of the
/// longest basic plans.
const WALKED: [usize; 3] = [1023, 4095, LONGEST_PLAN - 1];

/// The lengths of long basic plans, doubling from the first of those to the last.
fn lengths() -> impl Iterator<Item = usize> {
    let odd = sizes().map(|size| size - 1);
    odd.filter(|&words| words >= WALKED[0])
}

/// A station file of the bench, and its first message.
const BENCH: &[u8] = include_bytes!("../../../examples/bench/crusted-coin.station");
const SETTLES: u8 = 13;

/// The tables of the bench, and its plan.
fn bench_file() -> (Vec<u8>, Vec<u8>) {
    let (mut tables, mut plan) = (vec![0; TABLES_LENGTH], vec![0; LONGEST_PLAN]);
    let size = read_station(BENCH, &mut tables, &mut plan).expect("the file is accepted");
    plan.truncate(size);
    (tables, plan)
}

/// The tables of the bench, and the basic plan that its plan unfolds to.
fn bench() -> (Vec<u8>, Vec<u8>) {
    let (tables, plan) = bench_file();
    let unfolding = Unfolding::within(tables, plan, LONGEST_PLAN).expect("the bench unfolds");
    (unfolding.tables, unfolding.reached)
}

/// A chain of so many words over four actions, each followed by all that is behind it.
fn deep_plan(words: usize) -> Vec<u8> {
    let mut plan: Vec<u8> = (1..=4).cycle().take(words.div_ceil(2)).collect();
    plan.resize(words, PRODUCT);
    plan
}

/// A sum of so many words: products of two of four actions.
fn wide_plan(words: usize) -> Vec<u8> {
    let product = |index: usize| {
        let (a, b) = (1 + index % 4, 1 + index / 4 % 4);
        vec![a as u8, b as u8, PRODUCT]
    };
    sum((0..words.div_ceil(4)).map(product))
}

/// The messages measured, each with the cells that name it: plan, words and marks.
pub fn walks() -> Vec<(String, Walking)> {
    let (tables, plan) = bench();
    let mut plans = vec![("crusted coin", tables, plan, SETTLES)];
    plans.extend(WALKED.map(|words| ("deep", trial_tables(), deep_plan(words), 1)));
    plans.extend(WALKED.map(|words| ("wide", trial_tables(), wide_plan(words), 1)));
    let with_marks = |(name, tables, plan, message): (&str, Vec<u8>, Vec<u8>, u8)| {
        [(Marks::One, "one"), (Marks::All, "all")].map(|(marks, marked)| {
            let cells = format!("{name} | {} | {marked}", plan.len());
            let walking = Walking::new(tables.clone(), plan.clone(), marks, message);
            (cells, walking)
        })
    };
    plans.into_iter().flat_map(with_marks).collect()
}

/// Something that is asked of a plan. Nothing is lent.
pub struct Asking {
    ask: fn(Contender) -> Ask,
    tables: Vec<u8>,
    /// The plan.
    pub plan: Vec<u8>,
}

impl Asking {
    /// Judges a plan.
    fn judge(tables: Vec<u8>, plan: Vec<u8>) -> Asking {
        Asking {
            ask: |contender| contender.judge_plan,
            tables,
            plan,
        }
    }

    /// Counts a plan's orders and stuck paths.
    fn count(tables: Vec<u8>, plan: Vec<u8>) -> Asking {
        Asking {
            ask: |contender| contender.count_orders,
            tables,
            plan,
        }
    }

    /// Asks whether the same plan is basic: it judges as much as a count does, and counts nothing.
    pub fn whether_basic(&self) -> Asking {
        Asking {
            ask: |contender| contender.is_basic,
            tables: self.tables.clone(),
            plan: self.plan.clone(),
        }
    }

    /// Asks the same of a plan of one action, under the same tables.
    pub fn of_one_action(&self) -> Asking {
        Asking {
            ask: self.ask,
            tables: self.tables.clone(),
            plan: vec![1],
        }
    }
}

impl Workload for Asking {
    fn run(&mut self, contender: Contender) -> Ended {
        (self.ask)(contender)(&self.tables, &self.plan)
    }

    fn lent(&mut self) -> Vec<&mut [u8]> {
        Vec::new()
    }
}

/// A plan of as many words as there can be, drawn at random: words of no, one and two operands come
/// alike often, as far as the words left can still end the plan.
fn random_plan(n: u8) -> Vec<u8> {
    let random = &mut Random::new(1);
    let ones: Vec<u8> = (ENCAPSULATION..=LAST_ENCAPSULATION)
        .chain([THETA])
        .collect();
    let mut plan = Vec::with_capacity(LONGEST_PLAN);
    let mut waiting = 0;
    for left in (0..LONGEST_PLAN).rev() {
        // Each of the words left can make one subplan of two, and one must be left in the end.
        let fits = |&taken: &usize| taken <= waiting && waiting - taken <= left;
        let fitting: Vec<usize> = (0..=2).filter(fits).collect();
        let taken = random.pick(&fitting);
        let word = match taken {
            0 => random.between(0, n.into()) as u8,
            1 => random.pick(&ones),
            _ => random.between(CHOICE.into(), UNLESS.into()) as u8,
        };
        plan.push(word);
        waiting = waiting - taken + 1;
    }
    plan
}

/// A plan under a sign of one operand.
fn under(mut plan: Vec<u8>, sign: u8) -> Vec<u8> {
    plan.push(sign);
    plan
}

/// The plans judged, each with its name. All are as long as a plan can be.
pub fn judgements() -> Vec<(&'static str, Asking)> {
    let sets = (ENCAPSULATION..=LAST_ENCAPSULATION).cycle();
    let plans = [
        ("sum", under(long_sum(LONGEST_PLAN - 1), THETA)),
        ("deep", under(deep_plan(LONGEST_PLAN - 1), ENCAPSULATION)),
        (
            "blocked",
            [1].into_iter().chain(sets).take(LONGEST_PLAN).collect(),
        ),
        ("mixed", mixed_plan(actions(&trial_tables()))),
        ("random", random_plan(actions(&trial_tables()))),
    ];
    let judged = |(name, plan)| (name, Asking::judge(trial_tables(), plan));
    plans.into_iter().map(judged).collect()
}

/// A sum of so many words, a multiple of 3: of any four summands one is an action before dead stop,
/// one a product of two actions, and two are actions.
fn both_plan(words: usize) -> Vec<u8> {
    let summand = |index: usize| {
        let (a, b) = (1 + (index % 4) as u8, 1 + (index / 4 % 4) as u8);
        match index % 4 {
            0 => vec![b, DEAD_STOP, PRODUCT],
            1 => vec![b, a, PRODUCT],
            _ => vec![b],
        }
    };
    sum((0..words / 3).map(summand))
}

/// A sum of so many words: actions before dead stops.
fn stuck_plan(words: usize) -> Vec<u8> {
    let stuck = |index: usize| vec![1 + (index % 4) as u8, DEAD_STOP, PRODUCT];
    sum((0..words.div_ceil(4)).map(stuck))
}

/// The counts measured, each with the cells that name it: plan and words. All but that of the bench
/// are as long as a basic plan can be.
pub fn counts() -> Vec<(String, Asking)> {
    let longest = LONGEST_PLAN - 1;
    let (tables, plan) = bench();
    let mut plans = vec![("crusted coin", tables, plan)];
    plans.extend([
        ("deep", trial_tables(), deep_plan(longest)),
        ("sum", trial_tables(), long_sum(longest)),
        ("wide", trial_tables(), wide_plan(longest)),
        ("both", trial_tables(), both_plan(longest)),
        ("stuck", trial_tables(), stuck_plan(longest)),
    ]);
    let with_cells = |(name, tables, plan): (&str, Vec<u8>, Vec<u8>)| {
        let cells = format!("{name} | {}", plan.len());
        (cells, Asking::count(tables, plan))
    };
    plans.into_iter().map(with_cells).collect()
}

/// A question whether one action comes before another. Nothing is lent.
pub struct Preceding {
    tables: Vec<u8>,
    /// The plan.
    pub plan: Vec<u8>,
    /// The action that is to come before, and the one behind it.
    pair: (u8, u8),
}

impl Preceding {
    /// Asks the same of a plan of one action, under the same tables.
    pub fn of_one_action(&self) -> Preceding {
        Preceding {
            tables: self.tables.clone(),
            plan: vec![1],
            pair: self.pair,
        }
    }
}

impl Workload for Preceding {
    fn run(&mut self, contender: Contender) -> Ended {
        let (first, second) = self.pair;
        (contender.precedes)(&self.tables, &self.plan, first, second)
    }

    fn lent(&mut self) -> Vec<&mut [u8]> {
        Vec::new()
    }
}

/// A basic plan of so many words over four actions, drawn at random: of the signs two in three are
/// sums, of parts of any size, and the others products.
fn random_basic_plan(words: usize) -> Vec<u8> {
    let random = &mut Random::new(1);
    let mut backwards = Vec::with_capacity(words);
    // How many actions each part has.
    let mut waiting = vec![words.div_ceil(2)];
    while let Some(actions) = waiting.pop() {
        if actions == 1 {
            backwards.push(random.between(1, 4) as u8);
        } else if random.once_in(3) {
            backwards.push(PRODUCT);
            waiting.extend([1, actions - 1]);
        } else {
            backwards.push(CHOICE);
            let left = random.between(1, actions - 1);
            waiting.extend([left, actions - left]);
        }
    }
    backwards.reverse();
    backwards
}

/// A plan with action 1 so many times before it.
fn behind_ones(ones: usize, plan: Vec<u8>) -> Vec<u8> {
    [vec![1; ones], plan, vec![PRODUCT; ones]].concat()
}

/// A question about the first pair, which gets a yes, and one about the second, which gets a no; each
/// with the cells that name it.
fn yes_and_no(
    name: &str,
    tables: Vec<u8>,
    plan: Vec<u8>,
    pairs: [(u8, u8); 2],
) -> [(String, Preceding); 2] {
    [("yes", pairs[0]), ("no", pairs[1])].map(|(answer, pair)| {
        let cells = format!("{name} | {} | {answer}", plan.len());
        let (tables, plan) = (tables.clone(), plan.clone());
        (cells, Preceding { tables, plan, pair })
    })
}

/// Messages of the bench: the weight of the first coin, and the photograph of the next one.
const WEIGHT: u8 = 3;
const NEXT_PHOTOGRAPH: u8 = 9;

/// The questions measured, each with the cells that name it: plan, words and answer. The bench's
/// balance settles before each weight, and its hub lets the photograph overtake the weight. The
/// other plans begin with action 1 alone: it comes before each 2, and has no 2 before it.
pub fn precedences() -> Vec<(String, Preceding)> {
    let (tables, plan) = bench();
    let pairs = [(SETTLES, WEIGHT), (WEIGHT, NEXT_PHOTOGRAPH)];
    let mut asked = Vec::from(yes_and_no("crusted coin", tables, plan, pairs));
    let deep = lengths().map(|words| ("deep", deep_plan(words)));
    let wide = lengths().map(|words| ("wide", behind_ones(2, wide_plan(words - 4))));
    let random = lengths().map(|words| ("random", behind_ones(1, random_basic_plan(words - 2))));
    for (name, plan) in deep.chain(wide).chain(random) {
        asked.extend(yes_and_no(name, trial_tables(), plan, [(1, 2), (2, 1)]));
    }
    asked
}

/// Tables and a plan to write as a station file, and what is lent: an area as long as the file.
pub struct Writing {
    tables: Vec<u8>,
    plan: Vec<u8>,
    area: Vec<u8>,
}

impl Writing {
    /// The file of these tables and this plan.
    fn new(tables: Vec<u8>, plan: Vec<u8>) -> Writing {
        let area = station_file(&tables, &plan);
        Writing { tables, plan, area }
    }

    /// How many blocks the file has.
    pub fn blocks(&self) -> usize {
        self.area.len() / BLOCK
    }

    /// The same call with an area of no bytes: it judges tables and plan, by the same code, and then
    /// makes no block.
    pub fn without_blocks(&self) -> Writing {
        Writing {
            tables: self.tables.clone(),
            plan: self.plan.clone(),
            area: Vec::new(),
        }
    }

    /// Reads the same file.
    pub fn read_back(&self) -> ReadingBack {
        ReadingBack {
            file: station_file(&self.tables, &self.plan),
            tables: vec![0; self.tables.len()],
            plan: vec![0; self.plan.len()],
        }
    }
}

impl Workload for Writing {
    fn run(&mut self, contender: Contender) -> Ended {
        (contender.write_station)(&self.tables, &self.plan, &mut self.area)
    }

    fn lent(&mut self) -> Vec<&mut [u8]> {
        vec![&mut self.area]
    }
}

/// A station file to read, and what is lent: areas as long as what is read.
pub struct ReadingBack {
    file: Vec<u8>,
    tables: Vec<u8>,
    plan: Vec<u8>,
}

impl ReadingBack {
    /// The same call with a plan area of no bytes: it judges the blocks and gathers what they hold,
    /// by the same code, and then judges neither tables nor plan.
    pub fn blocks_alone(&self) -> ReadingBack {
        ReadingBack {
            file: self.file.clone(),
            tables: self.tables.clone(),
            plan: Vec::new(),
        }
    }
}

impl Workload for ReadingBack {
    fn run(&mut self, contender: Contender) -> Ended {
        (contender.read_station)(&self.file, &mut self.tables, &mut self.plan)
    }

    fn lent(&mut self) -> Vec<&mut [u8]> {
        vec![&mut self.tables, &mut self.plan]
    }
}

/// The words of the plans that are written, beside that of the bench: of one action, then of plans
/// that fill 1, 2, 4 and so on up to 32 blocks, and of the longest, which has 256 words in a 33rd.
const WRITTEN: [usize; 8] = [
    1,
    CONTENT,
    2 * CONTENT,
    4 * CONTENT,
    8 * CONTENT,
    16 * CONTENT,
    32 * CONTENT,
    LONGEST_PLAN,
];

/// The files measured, each with the cells that name it: plan, words and blocks. But for the bench's
/// the plans have their actions first and then their signs: what judging takes, most of the call,
/// then differs little from call to call, so that it can be taken off.
pub fn station_files() -> Vec<(String, Writing)> {
    let (tables, plan) = bench_file();
    let mut plans = vec![("crusted coin", tables, plan)];
    plans.extend(WRITTEN.map(|words| match words {
        1 => ("action", trial_tables(), vec![1]),
        _ => {
            let plan = under(deep_plan(words - 1), ENCAPSULATION);
            ("deep", trial_tables(), plan)
        }
    }));
    let with_cells = |(name, tables, plan): (&str, Vec<u8>, Vec<u8>)| {
        let words = plan.len();
        let writing = Writing::new(tables, plan);
        (format!("{name} | {words} | {}", writing.blocks()), writing)
    };
    plans.into_iter().map(with_cells).collect()
}

#[cfg(test)]
mod tests {
    use super::*;
    use reference::plans::is_basic;
    use std::collections::HashSet;

    #[test]
    fn merges_finish_and_use_their_areas() {
        for merge in MERGES {
            for area in sizes().take(4) {
                let (second, unfolding) = merge.longest(2, area);
                assert!(unfolding.steps > 20, "{} {area}", merge.name);
                let longer = merge.plan(2, second + 1);
                assert!(Unfolding::within(trial_tables(), longer, area).is_none());
            }
        }
    }

    #[test]
    fn sums_are_of_different_plans_and_as_many_steps() {
        let mut steps = HashSet::new();
        for area in sizes() {
            let (count, unfolding) = longest_sum(area);
            let plans: HashSet<_> = (0..count).map(small).collect();
            assert_eq!(plans.len(), count);
            assert!(unfolding.plan.len() > area - 64);
            assert_eq!(unfolding.steps % count, 0);
            steps.insert(unfolding.steps / count);
        }
        assert_eq!(steps.len(), 1, "each small plan takes the same steps");
    }

    #[test]
    fn outcomes_have_every_lent_byte() {
        let mut unfolding =
            Unfolding::within(trial_tables(), vec![1, 2, MERGE, ENCAPSULATION], 32).unwrap();
        let (ended, bytes) = unfolding.outcome(PLAIN);
        assert_eq!(ended, (0, unfolding.steps, 1));
        assert_eq!(bytes.len(), 3);
        assert!(bytes.concat().iter().all(|&byte| byte != UNTOUCHED));
    }

    #[test]
    fn texts_are_of_nearly_the_longest_plans() {
        for (name, mut reading) in texts() {
            let (number, _, words) = reading.run(PLAIN);
            assert_eq!(number, 0, "{name}");
            assert!(words > LONGEST_PLAN - 100, "{name}: {words}");
        }
    }

    #[test]
    fn deep_texts_are_as_deep_as_is_allowed() {
        for (depth, number) in [(DEEPEST, 0), (DEEPEST + 1, 62)] {
            for text in deep_texts(depth) {
                let mut reading = Reading::new(trial_tables(), &text, LONGEST_PLAN);
                assert_eq!(reading.run(PLAIN).0, number, "{text}");
            }
        }
    }

    #[test]
    fn messages_are_taken_in_basic_plans_of_these_lengths() {
        let walks = walks();
        let lengths: Vec<usize> = walks
            .iter()
            .map(|(_, walking)| walking.plan.len())
            .collect();
        let wanted = [45, 1023, 4095, 16_383, 1023, 4095, 16_383];
        assert_eq!(lengths, wanted.map(|words| [words, words]).concat());
        for (name, mut walking) in walks {
            assert!(is_basic(&walking.plan), "{name}");
            assert_eq!(walking.beginning().run(PLAIN), (0, 0, 0), "{name}");
            let marked = walking.given.iter().filter(|&&mark| mark == 1).count();
            let wanted = if name.ends_with("one") {
                1
            } else {
                walking.plan.len()
            };
            assert_eq!(marked, wanted, "{name}");
            // Each call finds the marks that are given, so each one is taken.
            let first = walking.outcome(PLAIN);
            assert_eq!(first.0 .0, 0, "{name}");
            assert!(walking.outcome(PLAIN) == first, "{name}");
            assert!(walking.marks != walking.given, "{name}");
        }
    }

    #[test]
    fn judged_plans_are_accepted_and_as_long_as_can_be() {
        for (name, mut judging) in judgements() {
            assert_eq!(judging.plan.len(), LONGEST_PLAN, "{name}");
            assert_eq!(judging.run(PLAIN), (0, 0, 0), "{name}");
            judging.plan.push(THETA);
            assert_eq!(judging.run(PLAIN), (11, 0, 0), "{name}");
        }
    }

    #[test]
    fn paths_are_counted_in_basic_plans_of_these_lengths() {
        let wanted = [
            ("crusted coin | 45", (6, 0)),
            ("deep | 16383", (1, 0)),
            ("sum | 16383", (8192, 0)),
            ("wide | 16383", (4096, 0)),
            ("both | 16383", (4095, 1366)),
            ("stuck | 16383", (0, 4096)),
        ];
        let counts = counts();
        assert_eq!(counts.len(), wanted.len());
        for ((cells, mut counting), (name, (orders, stuck))) in counts.into_iter().zip(wanted) {
            assert_eq!(cells, name);
            assert_eq!(counting.whether_basic().run(PLAIN), (0, 0, 1), "{name}");
            assert_eq!(counting.run(PLAIN), (0, orders, stuck), "{name}");
        }
    }

    #[test]
    fn actions_come_before_others_in_basic_plans_of_these_lengths() {
        let asked = precedences();
        let lengths: Vec<usize> = asked.iter().map(|(_, asking)| asking.plan.len()).collect();
        let doubling = [1023, 2047, 4095, 8191, 16_383];
        let wanted = [vec![45], doubling.repeat(3)].concat();
        let wanted: Vec<[usize; 2]> = wanted.iter().map(|&words| [words, words]).collect();
        assert_eq!(lengths, wanted.concat());
        for (name, mut asking) in asked {
            assert!(is_basic(&asking.plan), "{name}");
            assert!(asking.plan.contains(&asking.pair.1), "{name}");
            let wanted = match &name[..] {
                "crusted coin | 45 | no" => (0, 0, 2),
                no if no.ends_with("no") => (0, 0, 0),
                _ => (0, 1, 0),
            };
            assert_eq!(asking.run(PLAIN), wanted, "{name}");
            assert_eq!(asking.of_one_action().run(PLAIN).0, 0, "{name}");
        }
    }

    #[test]
    fn files_are_written_and_read_back_at_these_lengths() {
        let wanted = [
            ("crusted coin | 22 | 6", 22, 6),
            ("action | 1 | 6", 1, 6),
            ("deep | 504 | 6", 504, 6),
            ("deep | 1008 | 7", 1008, 7),
            ("deep | 2016 | 9", 2016, 9),
            ("deep | 4032 | 13", 4032, 13),
            ("deep | 8064 | 21", 8064, 21),
            ("deep | 16128 | 37", 16_128, 37),
            ("deep | 16384 | 38", 16_384, 38),
        ];
        let files = station_files();
        assert_eq!(files.len(), wanted.len());
        for ((cells, mut writing), (name, words, blocks)) in files.into_iter().zip(wanted) {
            assert_eq!(cells, name);
            assert_eq!(writing.blocks(), blocks, "{name}");
            let (ended, areas) = writing.outcome(PLAIN);
            assert_eq!(ended, (0, 0, 512 * blocks), "{name}");
            assert_eq!(writing.without_blocks().run(PLAIN), (74, 0, 0), "{name}");
            let mut reading = writing.read_back();
            assert!(areas == [&reading.file[..]], "{name}");
            let (ended, areas) = reading.outcome(PLAIN);
            assert_eq!(ended, (0, 0, words), "{name}");
            assert!(areas == [&writing.tables[..], &writing.plan], "{name}");
            assert_eq!(reading.blocks_alone().run(PLAIN), (55, 0, 0), "{name}");
            if name.starts_with("crusted coin") {
                assert!(reading.file == BENCH);
            }
        }
    }
}
