//! Cases: a call with everything handed to it, how cases are drawn, and what comes out.

use crate::answers::Answer;
use crate::fixing::{FormOfFormCase, TwoFormsCase};
use crate::implementation::{Call, Implementation};
use crate::round_trips::{RereadCase, RewriteCase};
use crate::turning::TurnedCase;
use crate::walking::Walking;
use reference::plans::{judge_plan, operands, LONGEST_PLAN};
use reference::random::cases::{
    any_derivation, check_case, own_rewriting_case, tables_and_plan, unfold_case_of, CheckCase,
    UnfoldCase,
};
use reference::random::forms::{form_case, FormCase};
use reference::random::plans::{basic_plan, plan, repeating_basic_plan};
use reference::random::precedence::{precedence_case, PrecedenceCase};
use reference::random::rewritings::damage_rewriting;
use reference::random::stations::{any_file, station_case, write_case, StationCase, WriteCase};
use reference::random::tables::{damaged_tables, lawful_tables};
use reference::random::texts::{long_text, text_case, text_case_of, TextCase};
use reference::random::walks::{
    self, fresh_walk_case, messages_case, walk_case, FreshWalkCase, MessagesCase, WalkCase,
};
use reference::random::Random;
use reference::stations::{program, station_file};
use reference::tables::trial_tables;

/// One call, with everything handed to it; or the calls of one walk, of one round trip, of two
/// forms, or of a rewriting and the same turned round.
#[derive(Clone, Debug)]
pub enum Case {
    /// Tables to judge.
    JudgeTables(Vec<u8>),
    /// Tables and a plan to judge.
    JudgePlan(Vec<u8>, Vec<u8>),
    /// Tables and a plan, basic or not.
    IsBasic(Vec<u8>, Vec<u8>),
    /// Tables and a plan whose orders and stuck paths are counted.
    CountOrders(Vec<u8>, Vec<u8>),
    /// An unfolding.
    Unfold(UnfoldCase),
    /// A rewriting to check.
    CheckRewriting(CheckCase),
    /// A rewriting to check, and the same turned round.
    TurnedRound(TurnedCase),
    /// A station file to read.
    ReadStation(StationCase),
    /// A station file to write.
    WriteStation(WriteCase),
    /// A station file to write, and what was written to read.
    Reread(RereadCase),
    /// A station file to read, and what was read to write.
    Rewrite(RewriteCase),
    /// An unfolding whose own rewriting is checked.
    UnfoldChecked(CheckedCase),
    /// A plan reached to copy.
    Reached(ReachedCase),
    /// A station file to list.
    ListStation(ListCase),
    /// A plan typed in signs to read.
    ReadText(TextCase),
    /// A walk to begin.
    FreshWalk(FreshWalkCase),
    /// A message to a walk with any marks.
    Walk(WalkCase),
    /// A walk to begin, and messages to it, each handed the marks and the finish that the call
    /// before left.
    Messages(MessagesCase),
    /// Two actions, of which the first is to come before the second in a plan.
    Precedes(PrecedenceCase),
    /// A plan to bring to its fixed form.
    FixForm(FormCase),
    /// A plan to bring to its fixed form, and the form to bring to its own.
    FormOfForm(FormOfFormCase),
    /// Two plans to bring to their fixed forms.
    TwoForms(TwoFormsCase),
}

/// What is handed to the unfolding with a check.
#[derive(Clone, Debug)]
pub struct CheckedCase {
    /// What the unfolding is handed.
    pub unfolding: UnfoldCase,
    /// The checker's area A, with the bytes it has before.
    pub c: Vec<u8>,
    /// The checker's area B, with the bytes it has before.
    pub d: Vec<u8>,
}

/// What is handed to the call that copies the plan reached.
#[derive(Clone, Debug)]
pub struct ReachedCase {
    /// Area A.
    pub a: Vec<u8>,
    /// Area B.
    pub b: Vec<u8>,
    /// The steps made.
    pub steps: usize,
    /// The words of the plan reached.
    pub size: usize,
    /// The area for the copy, with the bytes it has before.
    pub plan: Vec<u8>,
}

/// What is handed to the listing.
#[derive(Clone, Debug)]
pub struct ListCase {
    /// The file.
    pub file: Vec<u8>,
    /// The area for the listing, with the bytes it has before.
    pub out: Vec<u8>,
}

/// What a call answers, and everything lent afterwards.
#[derive(Clone, Debug, PartialEq, Eq)]
pub struct Outcome {
    /// The answer.
    pub answer: Answer,
    /// The lent slices, in the order of the call's parameters.
    pub lent: Vec<Vec<u8>>,
    /// The number of the finish, which is lent to a walk; none in every other call.
    pub finish: Option<usize>,
    /// Where the case has several calls, the outcomes of those before this one.
    pub before: Vec<Outcome>,
}

impl Outcome {
    /// The outcome of one call that is no walk.
    fn of(answer: Answer, lent: Vec<Vec<u8>>) -> Outcome {
        Outcome {
            answer,
            lent,
            finish: None,
            before: Vec::new(),
        }
    }
}

/// Plans of more words than this come in a small share of the cases: they are slow to draw and
/// to run.
const SHORT: usize = 40;
/// Plans of at most so many words are soon unfolded, even by the reference.
const SOON_UNFOLDED: usize = 9;
/// The words of the longest plan that the program takes; files with a longer one are refused.
const LONGEST_LISTED: usize = 8192;
/// Once in so many cases the plan is a long one.
const LONG_ONCE_IN: usize = 32;

impl Case {
    /// The case of this seed.
    pub fn draw(seed: u64) -> Case {
        let random = &mut Random::new(seed);
        match random.below(36) {
            0 => Case::JudgeTables(any_tables(random)),
            1 | 2 => {
                let (tables, plan) = handed_in(random);
                Case::JudgePlan(tables, plan)
            }
            3 => {
                let (tables, plan) = near_basic(random);
                Case::IsBasic(tables, plan)
            }
            4 => {
                let (tables, plan) = any_count(random);
                Case::CountOrders(tables, plan)
            }
            5..=8 => Case::Unfold(any_unfolding(random)),
            9 => {
                let unfolding = any_unfolding(random);
                match own_rewriting_case(&unfolding) {
                    Some(own) => checked_and_turned(random, own, 2),
                    None => Case::Unfold(unfolding),
                }
            }
            10..=13 => {
                let check = any_check(random);
                checked_and_turned(random, check, 4)
            }
            14 | 15 => Case::ReadStation(any_station(random)),
            16 | 17 => Case::UnfoldChecked(any_checked(random)),
            18 => Case::Reached(any_reached(random)),
            19 => Case::ListStation(any_listing(random)),
            20..=22 => Case::ReadText(any_text(random)),
            23 => Case::FreshWalk(fresh_walk_case(random)),
            24 | 25 => Case::Walk(walk_case(random)),
            26 | 27 => Case::Messages(messages_case(random)),
            28 | 29 => Case::Precedes(precedence_case(random)),
            30 | 31 => Case::WriteStation(write_case(random)),
            32 => round_trip(random),
            33 | 34 => Case::FixForm(form_case(random)),
            _ => two_forms(random),
        }
    }

    /// Makes the call, or the calls of a walk, of a round trip, of two forms or of a rewriting turned
    /// round, leaving the case as it is.
    pub fn run(&self, implementation: &impl Implementation) -> Outcome {
        match self {
            Case::FreshWalk(case) => Walking::before(case).begin(implementation),
            Case::Walk(case) => Walking::on_the_way(case).bring(implementation, case.message),
            Case::Messages(case) => Walking::before(&case.fresh).follow(implementation, case),
            Case::Reread(case) => case.run(implementation),
            Case::Rewrite(case) => case.run(implementation),
            Case::FormOfForm(case) => case.run(implementation),
            Case::TwoForms(case) => case.run(implementation),
            Case::TurnedRound(case) => case.run(implementation),
            _ => self.make_call(implementation),
        }
    }

    /// Makes the one call of a case that has one and is no walk.
    fn make_call(&self, implementation: &impl Implementation) -> Outcome {
        let mut lent: Vec<Vec<u8>> = self.lent().into_iter().cloned().collect();
        let call = match (self, &mut lent[..]) {
            (Case::JudgeTables(tables), _) => Call::JudgeTables(tables),
            (Case::JudgePlan(tables, plan), _) => Call::JudgePlan(tables, plan),
            (Case::IsBasic(tables, plan), _) => Call::IsBasic(tables, plan),
            (Case::CountOrders(tables, plan), _) => Call::CountOrders(tables, plan),
            (Case::Unfold(case), [list, a, b]) => {
                Call::Unfold(&case.tables, &case.plan, case.allowance, list, a, b)
            }
            (Case::CheckRewriting(case), [a, b]) => Call::CheckRewriting(
                &case.tables,
                &case.start,
                &case.claimed,
                &case.rewriting,
                a,
                b,
            ),
            (Case::ReadStation(case), [tables, plan]) => {
                Call::ReadStation(&case.file, tables, plan)
            }
            (Case::WriteStation(case), [area]) => {
                Call::WriteStation(&case.tables, &case.plan, area)
            }
            (Case::UnfoldChecked(case), [list, a, b, c, d]) => Call::UnfoldChecked(
                &case.unfolding.tables,
                &case.unfolding.plan,
                case.unfolding.allowance,
                list,
                [a, b],
                [c, d],
            ),
            (Case::Reached(case), [plan]) => {
                Call::Reached(&case.a, &case.b, case.steps, case.size, plan)
            }
            (Case::ListStation(case), [out]) => Call::ListStation(&case.file, out),
            (Case::ReadText(case), [plan]) => Call::ReadText(&case.tables, &case.text, plan),
            (Case::Precedes(case), _) => {
                Call::Precedes(&case.tables, &case.plan, case.first, case.second)
            }
            (Case::FixForm(case), [area]) => Call::FixForm(&case.tables, &case.plan, area),
            _ => unreachable!("each case lends what its call takes"),
        };
        let answer = implementation.answer(call);
        Outcome::of(answer, lent)
    }

    /// The slices lent, with the bytes they have before.
    fn lent(&self) -> Vec<&Vec<u8>> {
        match self {
            Case::Unfold(case) => vec![&case.list, &case.a, &case.b],
            Case::CheckRewriting(case) => vec![&case.a, &case.b],
            Case::ReadStation(case) => vec![&case.tables, &case.plan],
            Case::WriteStation(case) => vec![&case.area],
            Case::UnfoldChecked(case) => {
                let unfolding = &case.unfolding;
                vec![
                    &unfolding.list,
                    &unfolding.a,
                    &unfolding.b,
                    &case.c,
                    &case.d,
                ]
            }
            Case::Reached(case) => vec![&case.plan],
            Case::ListStation(case) => vec![&case.out],
            Case::ReadText(case) => vec![&case.plan],
            Case::FixForm(case) => vec![&case.area],
            _ => Vec::new(),
        }
    }
}

/// Tables, mostly damaged.
fn any_tables(random: &mut Random) -> Vec<u8> {
    match random.below(4) {
        0 => lawful_tables(random),
        _ => damaged_tables(random),
    }
}

/// Tables and a plan, accepted or damaged.
fn handed_in(random: &mut Random) -> (Vec<u8>, Vec<u8>) {
    if random.once_in(LONG_ONCE_IN) {
        return with_long_plan(random);
    }
    pass_by_plans_above(random, SHORT);
    tables_and_plan(random)
}

/// Lawful tables and a long plan, half of them at an edge of what is accepted.
fn with_long_plan(random: &mut Random) -> (Vec<u8>, Vec<u8>) {
    let tables = lawful_tables(random);
    let size = match random.below(4) {
        0 => LONGEST_PLAN,
        1 => LONGEST_PLAN - 1 + random.below(3),
        2 => random.between(1000, LONGEST_PLAN),
        _ => random.between(SHORT, 1000),
    };
    let plan = plan(random, tables[0], size);
    (tables, plan)
}

/// Lets numbers go by until the next plan drawn has at most so many words.
fn pass_by_plans_above(random: &mut Random, words: usize) {
    while tables_and_plan(&mut random.clone()).1.len() > words {
        random.number();
    }
}

fn any_unfolding(random: &mut Random) -> UnfoldCase {
    let (tables, plan) = handed_in(random);
    unfold_case_of(random, tables, plan)
}

fn any_check(random: &mut Random) -> CheckCase {
    if random.once_in(LONG_ONCE_IN) {
        return long_check(random);
    }
    pass_by_plans_above(random, SHORT);
    check_case(random)
}

/// A rewriting to check; once in so many times, where it is accepted, turned round as well.
fn checked_and_turned(random: &mut Random, check: CheckCase, once_in: usize) -> Case {
    let turned = match random.once_in(once_in) {
        true => TurnedCase::of(random, &check),
        false => None,
    };
    turned.map_or(Case::CheckRewriting(check), Case::TurnedRound)
}

/// A derivation with a long plan at one of its ends, its steps at places far from each other.
fn long_check(random: &mut Random) -> CheckCase {
    let (tables, mut plan) = with_long_plan(random);
    plan.truncate(LONGEST_PLAN);
    if judge_plan(&tables, &plan).is_err() {
        plan = vec![0];
    }
    let made = any_derivation(random, &tables, &plan, 8);
    let area = random.near(made.longest, &[LONGEST_PLAN, LONGEST_PLAN + 1]);
    let mut rewriting = made.rewriting;
    if random.once_in(3) {
        damage_rewriting(random, &tables, &mut rewriting, &made.end);
    }
    CheckCase {
        tables,
        start: made.start,
        claimed: made.end,
        rewriting,
        a: random.lent(area),
        b: random.lent(area + 1),
    }
}

fn any_station(random: &mut Random) -> StationCase {
    if !random.once_in(LONG_ONCE_IN) {
        pass_by_plans_above(random, SHORT);
    }
    station_case(random)
}

/// A station file written and read, or read and written; where the first of the two is refused,
/// that one alone.
fn round_trip(random: &mut Random) -> Case {
    if random.once_in(2) {
        let writing = write_case(random);
        return match RereadCase::of(random, &writing) {
            Some(case) => Case::Reread(case),
            None => Case::WriteStation(writing),
        };
    }
    let reading = any_station(random);
    match RewriteCase::of(random, &reading) {
        Some(case) => Case::Rewrite(case),
        None => Case::ReadStation(reading),
    }
}

/// A plan brought to its form, and then that form or another plan; where no form is made, the first
/// call alone.
fn two_forms(random: &mut Random) -> Case {
    let fixing = form_case(random);
    let both = match random.once_in(3) {
        true => FormOfFormCase::of(random, &fixing).map(Case::FormOfForm),
        false => TwoFormsCase::of(random, &fixing).map(Case::TwoForms),
    };
    both.unwrap_or(Case::FixForm(fixing))
}

/// An unfolding, and areas for the check that are mostly as long as its own.
fn any_checked(random: &mut Random) -> CheckedCase {
    let unfolding = any_unfolding(random);
    let (words, a, b) = (unfolding.plan.len(), unfolding.a.len(), unfolding.b.len());
    let (c, d) = match random.below(3) {
        0 => (random.near(a, &[0, words]), random.near(b, &[0, words])),
        _ => (a, b),
    };
    CheckedCase {
        unfolding,
        c: random.lent(c),
        d: random.lent(d),
    }
}

/// Two areas with anything in them, and an area close to the part that is copied.
fn any_reached(random: &mut Random) -> ReachedCase {
    let (a, b) = (random.below(40), random.below(40));
    let any = random.number() as usize;
    let steps = random.pick(&[0, 1, 2, 3, usize::MAX, any]);
    let area = if steps.is_multiple_of(2) { a } else { b };
    let most = random.below(area + 1);
    let size = random.near(most, &[0, area, usize::MAX, any]);
    let plan = random.near(size.min(area), &[0, 1, area, 41]);
    let (mut a, mut b) = (vec![0; a], vec![0; b]);
    a.fill_with(|| random.byte());
    b.fill_with(|| random.byte());
    ReachedCase {
        a,
        b,
        steps,
        size,
        plan: random.lent(plan),
    }
}

/// A station file, mostly of a plan that is soon unfolded, and an area close to its listing.
fn any_listing(random: &mut Random) -> ListCase {
    let file = match random.below(2 * LONG_ONCE_IN) {
        0..=3 => long_unfolding(random),
        4 => wide_unfolding(random),
        5..=15 => listed_file(random, SHORT),
        _ => listed_file(random, SOON_UNFOLDED),
    };
    let text = program(&file).len();
    let out = random.near(text, &[0, 1, 93_000]);
    ListCase {
        file,
        out: random.lent(out),
    }
}

/// A station file of a plan of at most so many words, or of more than the program takes.
fn listed_file(random: &mut Random, most: usize) -> Vec<u8> {
    loop {
        pass_by_plans_above(random, most);
        let (file, words) = any_file(random);
        if words <= most || words > LONGEST_LISTED {
            return file;
        }
    }
}

/// The station file of a plan whose unfolding takes about the 5,000 steps that the program
/// allows: a sum under eight encapsulations by empty sets, each of which takes a step for each
/// sign and each action.
fn long_unfolding(random: &mut Random) -> Vec<u8> {
    let leaves = random.between(311, 315);
    let mut plan: Vec<u8> = (0..leaves).map(|_| random.pick(&[1, 2, 3, 4])).collect();
    plan.extend(vec![64; leaves - 1]);
    plan.extend([81, 82, 83, 84, 85, 86, 87, 81]);
    station_file(&trial_tables(), &plan)
}

/// The station file of a merge of so many actions that the plans on the way may be longer than
/// the program's areas.
fn wide_unfolding(random: &mut Random) -> Vec<u8> {
    let actions = random.between(5, 9);
    let mut plan: Vec<u8> = (0..actions).map(|_| random.pick(&[1, 2, 3, 4])).collect();
    plan.extend(vec![66; actions - 1]);
    station_file(&trial_tables(), &plan)
}

/// A text of any kind, or one whose plan is about as long as a plan may be, at times with a
/// character too much: such a fault counts before the length.
fn any_text(random: &mut Random) -> TextCase {
    if !random.once_in(LONG_ONCE_IN) {
        return text_case(random);
    }
    let tables = lawful_tables(random);
    let mut told = long_text(random, tables[0]);
    if random.once_in(3) {
        told.text.push(random.pick(b"+.() "));
    }
    text_case_of(random, tables, told)
}

/// Any tables and plan, or lawful tables and a plan that is basic or differs from a basic one
/// in a word.
fn near_basic(random: &mut Random) -> (Vec<u8>, Vec<u8>) {
    if random.once_in(3) {
        return handed_in(random);
    }
    let tables = lawful_tables(random);
    let paths = match random.below(64) {
        0 => random.between(1, 2000),
        _ => random.between(1, 12),
    };
    let mut plan = basic_plan(random, tables[0], paths);
    if random.once_in(2) {
        let at = random.below(plan.len());
        plan[at] = match operands(plan[at]) {
            0 => random.pick(&[0, 1, tables[0]]),
            _ => random.pick(&[64, 65, 66, 68, 69]),
        };
    }
    (tables, plan)
}

/// Tables and a plan to count the paths of: as for whether a plan is basic, or as for a walk, whose
/// plans are mostly basic and repeat their actions; at times as long as a basic plan can be.
fn any_count(random: &mut Random) -> (Vec<u8>, Vec<u8>) {
    if random.once_in(LONG_ONCE_IN) {
        let tables = lawful_tables(random);
        let plan = repeating_basic_plan(random, tables[0], LONGEST_PLAN / 2);
        return (tables, plan);
    }
    match random.once_in(2) {
        true => near_basic(random),
        false => walks::tables_and_plan(random),
    }
}
