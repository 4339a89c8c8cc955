//! Making a case smaller while it keeps what makes it interesting.

use crate::cases::{Case, CheckedCase, ListCase, ReachedCase};
use crate::fixing::{FormOfFormCase, TwoFormsCase};
use crate::round_trips::{RereadCase, RewriteCase};
use crate::turning::TurnedCase;
use reference::forms::form;
use reference::plans::{is_basic, judge, operands, subplan, LONGEST_PLAN};
use reference::random::cases::{CheckCase, UnfoldCase};
use reference::random::forms::FormCase;
use reference::random::precedence::PrecedenceCase;
use reference::random::rewritings::spans;
use reference::random::stations::{file_length, StationCase, WriteCase};
use reference::random::texts::TextCase;
use reference::random::walks::{FreshWalkCase, MessagesCase, WalkCase};
use reference::records::{first_record, Record};
use reference::stations::{read_station, station_file};
use reference::tables::{trial_tables, TABLES_LENGTH};
use reference::texts::{read_text, typed};
use reference::unfolding::RECORD;
use std::cmp::Reverse;
use std::iter;
use std::ops::Range;

/// How many cases are tried at most.
const MOST_TRIES: usize = 3000;
/// What lent bytes are made alike to.
const LENT: u8 = 255;
/// What a rewriting and the same turned round weigh more than the former.
const TWO_CALLS: u64 = 1 << 40;

/// A case that is interesting and has no smaller interesting one among those tried.
pub fn shrink(case: Case, interesting: impl Fn(&Case) -> bool) -> Case {
    let mut smallest = case;
    let mut tries = 0;
    loop {
        let found = smaller(&smallest).into_iter().find(|case| {
            tries += 1;
            interesting(case)
        });
        match found {
            Some(case) if tries < MOST_TRIES => smallest = case,
            Some(case) => return case,
            None => return smallest,
        }
    }
}

/// Smaller cases to try, the boldest first.
fn smaller(case: &Case) -> Vec<Case> {
    let size = weight(case);
    let mut found = match case {
        Case::JudgeTables(tables) => each(smaller_tables(tables), Case::JudgeTables),
        Case::JudgePlan(tables, plan) => smaller_judged(tables, plan, Case::JudgePlan),
        Case::IsBasic(tables, plan) => smaller_judged(tables, plan, Case::IsBasic),
        Case::CountOrders(tables, plan) => smaller_judged(tables, plan, Case::CountOrders),
        Case::Unfold(case) => each(smaller_unfoldings(case), Case::Unfold),
        Case::CheckRewriting(case) => each(smaller_checks(case), Case::CheckRewriting),
        Case::TurnedRound(case) => smaller_turned(case),
        Case::ReadStation(case) => each(smaller_stations(case), Case::ReadStation),
        Case::WriteStation(case) => each(smaller_writings(case), Case::WriteStation),
        Case::Reread(case) => smaller_rereads(case),
        Case::Rewrite(case) => smaller_rewrites(case),
        Case::UnfoldChecked(case) => smaller_checked(case),
        Case::Reached(case) => smaller_reached(case),
        Case::ListStation(case) => smaller_listings(case),
        Case::ReadText(case) => smaller_readings(case),
        Case::FreshWalk(case) => each(smaller_fresh_walks(case), Case::FreshWalk),
        Case::Walk(case) => smaller_walks(case),
        Case::Messages(case) => smaller_messages(case),
        Case::Precedes(case) => smaller_precedences(case),
        Case::FixForm(case) => each(smaller_fixings(case), Case::FixForm),
        Case::FormOfForm(case) => smaller_forms_of_forms(case),
        Case::TwoForms(case) => smaller_two_forms(case),
    };
    found.retain(|case| weight(case) < size);
    found
}

/// How big a case is. Each smaller case weighs less, so the search ends.
fn weight(case: &Case) -> u64 {
    let bytes = |slices: &[&Vec<u8>]| -> u64 {
        let weights = slices.iter().map(|slice| 4 * slice.len() + set(slice));
        weights.sum::<usize>() as u64
    };
    match case {
        Case::JudgeTables(tables) => bytes(&[tables]),
        Case::JudgePlan(tables, plan)
        | Case::IsBasic(tables, plan)
        | Case::CountOrders(tables, plan) => bytes(&[tables, plan]),
        Case::Unfold(case) => unfolding_weight(case),
        Case::CheckRewriting(case) => checking_weight(case),
        // More than either call alone: turned round, a rewriting may be much longer.
        Case::TurnedRound(case) => {
            checking_weight(&case.checking) + unlike(&[&case.c, &case.d]) + TWO_CALLS
        }
        Case::ReadStation(case) => reading_weight(case),
        Case::WriteStation(case) => writing_weight(case),
        Case::Reread(case) => writing_weight(&case.writing) + unlike(&[&case.tables, &case.plan]),
        Case::Rewrite(case) => reading_weight(&case.reading) + unlike(&[&case.area]),
        Case::UnfoldChecked(case) => {
            unfolding_weight(&case.unfolding) + unlike(&[&case.c, &case.d])
        }
        Case::Reached(case) => {
            let numbers = (case.steps as u64 / 4).saturating_add(case.size as u64 / 4);
            numbers + bytes(&[&case.a, &case.b]) + unlike(&[&case.plan])
        }
        Case::ListStation(case) => bytes(&[&case.file]) + unlike(&[&case.out]),
        Case::ReadText(case) => bytes(&[&case.tables, &case.text]) + unlike(&[&case.plan]),
        Case::FreshWalk(case) => fresh_walk_weight(case),
        Case::Walk(case) => {
            // A mark of 1 is the plainest.
            let odd = case.marks.iter().filter(|&&mark| mark > 1).count() as u64;
            bytes(&[&case.tables, &case.plan, &case.marks]) + odd + u64::from(case.finished)
        }
        Case::Messages(case) => fresh_walk_weight(&case.fresh) + bytes(&[&case.messages]),
        Case::Precedes(case) => {
            bytes(&[&case.tables, &case.plan]) + u64::from(case.first) + u64::from(case.second)
        }
        Case::FixForm(case) => fixing_weight(case),
        // One more for the second call.
        Case::FormOfForm(case) => fixing_weight(&case.fixing) + unlike(&[&case.area]) + 1,
        Case::TwoForms(case) => {
            fixing_weight(&case.fixing) + bytes(&[&case.plan]) + unlike(&[&case.area]) + 1
        }
    }
}

fn checking_weight(case: &CheckCase) -> u64 {
    let handed_in = [&case.tables, &case.start, &case.claimed, &case.rewriting];
    let bytes = handed_in.map(|slice| 4 * slice.len() + set(slice));
    bytes.iter().sum::<usize>() as u64 + unlike(&[&case.a, &case.b])
}

fn reading_weight(case: &StationCase) -> u64 {
    let bytes = 4 * case.file.len() + set(&case.file);
    bytes as u64 + unlike(&[&case.tables, &case.plan])
}

fn writing_weight(case: &WriteCase) -> u64 {
    let bytes = [&case.tables, &case.plan].map(|slice| 4 * slice.len() + set(slice));
    bytes.iter().sum::<usize>() as u64 + unlike(&[&case.area])
}

fn fixing_weight(case: &FormCase) -> u64 {
    let bytes = [&case.tables, &case.plan].map(|slice| 4 * slice.len() + set(slice));
    bytes.iter().sum::<usize>() as u64 + unlike(&[&case.area])
}

fn fresh_walk_weight(case: &FreshWalkCase) -> u64 {
    let bytes = [&case.tables, &case.plan].map(|slice| 4 * slice.len() + set(slice));
    let lent = unlike(&[&case.marks]) + u64::from(case.finished);
    bytes.iter().sum::<usize>() as u64 + lent
}

fn unfolding_weight(case: &UnfoldCase) -> u64 {
    let bytes = [&case.tables, &case.plan].map(|slice| 4 * slice.len() + set(slice));
    let lent = unlike(&[&case.list, &case.a, &case.b]);
    bytes.iter().sum::<usize>() as u64 + lent + case.allowance as u64
}

/// How many bytes are not zero.
fn set(bytes: &[u8]) -> usize {
    bytes.iter().filter(|&&byte| byte != 0).count()
}

/// The weight of lent slices.
fn unlike(slices: &[&Vec<u8>]) -> u64 {
    let one =
        |slice: &&Vec<u8>| 4 * slice.len() + slice.iter().filter(|&&byte| byte != LENT).count();
    slices.iter().map(one).sum::<usize>() as u64
}

fn each<T>(items: Vec<T>, case: impl Fn(T) -> Case) -> Vec<Case> {
    items.into_iter().map(case).collect()
}

fn smaller_judged(
    tables: &[u8],
    plan: &[u8],
    case: impl Fn(Vec<u8>, Vec<u8>) -> Case,
) -> Vec<Case> {
    let mut found = each(smaller_plans(plan), |plan| case(tables.to_vec(), plan));
    found.extend(each(smaller_tables(tables), |tables| {
        case(tables, plan.to_vec())
    }));
    found
}

/// Cases that differ from one in a part each.
struct Changed<'c, C> {
    case: &'c C,
    found: Vec<C>,
}

impl<C: Clone> Changed<'_, C> {
    fn of(case: &C) -> Changed<'_, C> {
        let found = Vec::new();
        Changed { case, found }
    }

    /// The case with each of some parts put in.
    fn with<T>(mut self, parts: Vec<T>, put: impl Fn(&mut C, T)) -> Self {
        self.found.extend(parts.into_iter().map(|part| {
            let mut case = self.case.clone();
            put(&mut case, part);
            case
        }));
        self
    }
}

fn smaller_unfoldings(case: &UnfoldCase) -> Vec<UnfoldCase> {
    let numbers = smaller_numbers(case.allowance as usize);
    Changed::of(case)
        .with(smaller_plans(&case.plan), |case, plan| case.plan = plan)
        .with(numbers, |case, number| case.allowance = number as u32)
        .with(smaller_lent(&case.list), |case, list| case.list = list)
        .with(smaller_lent(&case.a), |case, a| case.a = a)
        .with(smaller_lent(&case.b), |case, b| case.b = b)
        .with(smaller_tables(&case.tables), |case, tables| {
            case.tables = tables
        })
        .found
}

fn smaller_checked(case: &CheckedCase) -> Vec<Case> {
    let unfoldings = smaller_unfoldings(&case.unfolding);
    let changed = Changed::of(case)
        .with(unfoldings, |case, unfolding| case.unfolding = unfolding)
        .with(smaller_lent(&case.c), |case, c| case.c = c)
        .with(smaller_lent(&case.d), |case, d| case.d = d);
    each(changed.found, Case::UnfoldChecked)
}

fn smaller_reached(case: &ReachedCase) -> Vec<Case> {
    let changed = Changed::of(case)
        .with(smaller_numbers(case.steps), |case, steps| {
            case.steps = steps
        })
        .with(smaller_numbers(case.size), |case, size| case.size = size)
        .with(smaller_numbers(case.a.len()), |case, length| {
            case.a.truncate(length)
        })
        .with(smaller_numbers(case.b.len()), |case, length| {
            case.b.truncate(length)
        })
        .with(smaller_lent(&case.plan), |case, plan| case.plan = plan);
    each(changed.found, Case::Reached)
}

fn smaller_listings(case: &ListCase) -> Vec<Case> {
    let changed = Changed::of(case)
        .with(smaller_files(&case.file), |case, file| case.file = file)
        .with(smaller_lent(&case.out), |case, out| case.out = out);
    each(changed.found, Case::ListStation)
}

fn smaller_readings(case: &TextCase) -> Vec<Case> {
    let changed = Changed::of(case)
        .with(smaller_lent(&case.plan), |case, plan| case.plan = plan)
        .with(smaller_told(&case.text), |case, (text, less)| {
            let area = case.plan.len().saturating_sub(less);
            case.text = text;
            case.plan.truncate(area);
        })
        .with(smaller_texts(&case.text), |case, text| case.text = text)
        .with(smaller_tables(&case.tables), |case, tables| {
            case.tables = tables
        });
    each(changed.found, Case::ReadText)
}

fn smaller_fresh_walks(case: &FreshWalkCase) -> Vec<FreshWalkCase> {
    Changed::of(case)
        .with(smaller_marked(&case.plan, &case.marks), |case, marked| {
            (case.plan, case.marks) = marked
        })
        .with(smaller_lent(&case.marks), |case, marks| case.marks = marks)
        .with(vec![false], |case, finished| case.finished = finished)
        .with(smaller_tables(&case.tables), |case, tables| {
            case.tables = tables
        })
        .found
}

fn smaller_walks(case: &WalkCase) -> Vec<Case> {
    let changed = Changed::of(case)
        .with(smaller_marked(&case.plan, &case.marks), |case, marked| {
            (case.plan, case.marks) = marked
        })
        .with(smaller_marks(&case.marks), |case, marks| case.marks = marks)
        .with(vec![false], |case, finished| case.finished = finished)
        .with(smaller_tables(&case.tables), |case, tables| {
            case.tables = tables
        });
    each(changed.found, Case::Walk)
}

fn smaller_messages(case: &MessagesCase) -> Vec<Case> {
    let changed = Changed::of(case)
        .with(smaller_lists(&case.messages), |case, messages| {
            case.messages = messages
        })
        .with(smaller_fresh_walks(&case.fresh), |case, fresh| {
            case.fresh = fresh
        });
    each(changed.found, Case::Messages)
}

fn smaller_precedences(case: &PrecedenceCase) -> Vec<Case> {
    let [first, second] = [case.first, case.second].map(smaller_actions);
    let changed = Changed::of(case)
        .with(smaller_plans(&case.plan), |case, plan| case.plan = plan)
        .with(first.clone(), |case, action| {
            exchange(case, case.first, action)
        })
        .with(second.clone(), |case, action| {
            exchange(case, case.second, action)
        })
        .with(first, |case, action| case.first = action)
        .with(second, |case, action| case.second = action)
        .with(smaller_tables(&case.tables), |case, tables| {
            case.tables = tables
        });
    each(changed.found, Case::Precedes)
}

fn smaller_checks(case: &CheckCase) -> Vec<CheckCase> {
    let rewritings = smaller_rewritings(&case.rewriting);
    Changed::of(case)
        .with(rewritings, |case, rewriting| case.rewriting = rewriting)
        .with(smaller_plans(&case.start), |case, start| case.start = start)
        .with(vec![case.start.clone()], |case, start| case.claimed = start)
        .with(smaller_plans(&case.claimed), |case, claimed| {
            case.claimed = claimed
        })
        .with(smaller_lent(&case.a), |case, a| case.a = a)
        .with(smaller_lent(&case.b), |case, b| case.b = b)
        .with(smaller_tables(&case.tables), |case, tables| {
            case.tables = tables
        })
        .found
}

/// One of the two calls alone, or both with a part made smaller.
fn smaller_turned(case: &TurnedCase) -> Vec<Case> {
    let mut alone = vec![case.checking.clone()];
    alone.extend(case.second());
    let changed = Changed::of(case)
        .with(smaller_checks(&case.checking), |case, checking| {
            case.checking = checking
        })
        .with(smaller_lent(&case.c), |case, c| case.c = c)
        .with(smaller_lent(&case.d), |case, d| case.d = d);
    let mut found = each(alone, Case::CheckRewriting);
    found.extend(each(changed.found, Case::TurnedRound));
    found
}

fn smaller_stations(case: &StationCase) -> Vec<StationCase> {
    Changed::of(case)
        .with(smaller_lent(&case.tables), |case, tables| {
            case.tables = tables
        })
        .with(smaller_lent(&case.plan), |case, plan| case.plan = plan)
        .with(smaller_files(&case.file), |case, file| case.file = file)
        .found
}

fn smaller_writings(case: &WriteCase) -> Vec<WriteCase> {
    let (plans, length) = (smaller_plans(&case.plan), file_length(case.plan.len()));
    Changed::of(case)
        .with(plans.clone(), |case, plan| {
            shorten(&mut case.area, length, file_length(plan.len()));
            case.plan = plan;
        })
        .with(plans, |case, plan| case.plan = plan)
        .with(smaller_written(&case.area, length), |case, area| {
            case.area = area
        })
        .with(smaller_tables(&case.tables), |case, tables| {
            case.tables = tables
        })
        .found
}

fn smaller_rereads(case: &RereadCase) -> Vec<Case> {
    let changed = Changed::of(case)
        .with(smaller_writings(&case.writing), |case, writing| {
            case.writing = writing
        })
        .with(smaller_lent(&case.tables), |case, tables| {
            case.tables = tables
        })
        .with(smaller_lent(&case.plan), |case, plan| case.plan = plan);
    each(changed.found, Case::Reread)
}

fn smaller_rewrites(case: &RewriteCase) -> Vec<Case> {
    let (readings, length) = (smaller_stations(&case.reading), case.reading.file.len());
    let changed = Changed::of(case)
        .with(readings.clone(), |case, reading| {
            shorten(&mut case.area, length, reading.file.len());
            case.reading = reading;
        })
        .with(readings, |case, reading| case.reading = reading)
        .with(smaller_written(&case.area, length), |case, area| {
            case.area = area
        });
    each(changed.found, Case::Rewrite)
}

/// A shorter plan mostly has a form that is as much shorter, or the same one.
fn smaller_fixings(case: &FormCase) -> Vec<FormCase> {
    let (plans, words) = (smaller_plans(&case.plan), case.plan.len());
    let length = form_of(&case.plan).map_or(words, |form| form.len());
    Changed::of(case)
        .with(plans.clone(), |case, plan| {
            shorten(&mut case.area, words, plan.len());
            case.plan = plan;
        })
        .with(plans, |case, plan| case.plan = plan)
        .with(smaller_written(&case.area, length), |case, area| {
            case.area = area
        })
        .with(smaller_tables(&case.tables), |case, tables| {
            case.tables = tables
        })
        .found
}

/// The form of a plan that has one.
fn form_of(plan: &[u8]) -> Option<Vec<u8>> {
    let basic = judge(&any_actions(), plan).is_ok() && is_basic(plan);
    basic.then(|| form(plan))
}

/// One of the two calls alone, or both with a part made smaller.
fn smaller_forms_of_forms(case: &FormOfFormCase) -> Vec<Case> {
    let mut alone = vec![case.fixing.clone()];
    alone.extend(form_of(&case.fixing.plan).map(|plan| FormCase {
        tables: case.fixing.tables.clone(),
        plan,
        area: case.area.clone(),
    }));
    let changed = Changed::of(case)
        .with(smaller_fixings(&case.fixing), |case, fixing| {
            case.fixing = fixing
        })
        .with(smaller_lent(&case.area), |case, area| case.area = area);
    let mut found = each(alone, Case::FixForm);
    found.extend(each(changed.found, Case::FormOfForm));
    found
}

/// One of the two calls alone, or both with a part made smaller.
fn smaller_two_forms(case: &TwoFormsCase) -> Vec<Case> {
    let second = FormCase {
        tables: case.fixing.tables.clone(),
        plan: case.plan.clone(),
        area: case.area.clone(),
    };
    let changed = Changed::of(case)
        .with(smaller_fixings(&case.fixing), |case, fixing| {
            case.fixing = fixing
        })
        .with(smaller_plans(&case.plan), |case, plan| case.plan = plan)
        .with(smaller_lent(&case.area), |case, area| case.area = area);
    let mut found = each(vec![case.fixing.clone(), second], Case::FixForm);
    found.extend(each(changed.found, Case::TwoForms));
    found
}

/// Nothing, a half, a record's bytes less, one less.
fn smaller_numbers(number: usize) -> Vec<usize> {
    let mut found = vec![
        0,
        number / 2,
        number.saturating_sub(RECORD),
        number.saturating_sub(1),
    ];
    found.dedup();
    found.retain(|&smaller| smaller < number);
    found
}

/// Dead stop, the first two actions, a half, one less.
fn smaller_actions(action: u8) -> Vec<u8> {
    let mut found = vec![0, 1, 2, action / 2, action.saturating_sub(1)];
    found.retain(|&smaller| smaller < action);
    found
}

/// Puts one action in the place of another, and the other in its place, among the two that are
/// asked for and in the plan.
fn exchange(case: &mut PrecedenceCase, one: u8, other: u8) {
    let asked = [&mut case.first, &mut case.second];
    for action in asked.into_iter().chain(&mut case.plan) {
        match *action {
            _ if *action == one => *action = other,
            _ if *action == other => *action = one,
            _ => {}
        }
    }
}

/// Shorter lent slices, and the slice with all bytes alike.
fn smaller_lent(lent: &[u8]) -> Vec<Vec<u8>> {
    let mut found: Vec<Vec<u8>> = smaller_numbers(lent.len())
        .into_iter()
        .map(|length| lent[..length].to_vec())
        .collect();
    found.push(vec![LENT; lent.len()]);
    found
}

/// Makes an area shorter by as much as what is to be written into it, so that it stays as much too
/// long or too short.
fn shorten(area: &mut Vec<u8>, before: usize, after: usize) {
    let less = before.saturating_sub(after);
    area.truncate(area.len().saturating_sub(less));
}

/// An area as long as what is to be written, which has this length, one byte longer and one shorter;
/// and those of other lent slices.
fn smaller_written(area: &[u8], length: usize) -> Vec<Vec<u8>> {
    let near = [length, length + 1, length.saturating_sub(1)].into_iter();
    let shorter = near.filter(|&length| length < area.len());
    let mut found: Vec<Vec<u8>> = shorter.map(|length| area[..length].to_vec()).collect();
    found.extend(smaller_lent(area));
    found
}

/// Beginnings, the rewriting without one of its first records, or with a smaller left side in one.
fn smaller_rewritings(rewriting: &[u8]) -> Vec<Vec<u8>> {
    let spans = spans(rewriting);
    let halves = smaller_numbers(spans.len()).into_iter();
    let mut lengths: Vec<usize> = halves.map(|step| spans[step].start).collect();
    lengths.extend(smaller_numbers(rewriting.len()));
    let beginnings = lengths.iter().map(|&length| rewriting[..length].to_vec());
    let mut found: Vec<Vec<u8>> = beginnings.collect();
    let first = spans.iter().take(64).cloned();
    found.extend(first.map(|span| left_out(span).of(rewriting, 0)));
    for span in spans.iter().take(16) {
        let smaller = smaller_records(&rewriting[span.clone()]).into_iter();
        let behind = &rewriting[span.end..];
        found.extend(smaller.map(|record| [&rewriting[..span.start], &record, behind].concat()));
    }
    found
}

/// Of a step backwards, records with a smaller left side.
fn smaller_records(record: &[u8]) -> Vec<Vec<u8>> {
    let Some((record, _)) = first_record(record) else {
        return Vec::new();
    };
    let lefts = record.left.map_or(Vec::new(), smaller_plans);
    let with = |left: &Vec<u8>| {
        let left = Some(&left[..]);
        Record { left, ..record }.bytes()
    };
    lefts.iter().map(with).collect()
}

/// Beginnings, and the list without one of its messages.
fn smaller_lists(messages: &[u8]) -> Vec<Vec<u8>> {
    let beginnings = smaller_numbers(messages.len()).into_iter();
    let mut found: Vec<Vec<u8>> = beginnings
        .map(|length| messages[..length].to_vec())
        .collect();
    found.extend((0..messages.len()).map(|at| left_out(at..at + 1).of(messages, 0)));
    found
}

/// Shorter marks, marks that are plain, and marks with some of them taken away, as many as a half
/// at first and one at last.
fn smaller_marks(marks: &[u8]) -> Vec<Vec<u8>> {
    let lengths = smaller_numbers(marks.len()).into_iter();
    let mut found: Vec<Vec<u8>> = lengths.map(|length| marks[..length].to_vec()).collect();
    found.push(marks.iter().map(|&mark| mark.min(1)).collect());
    let parts = iter::successors(Some(marks.len()), |length| Some(length / 2));
    for part in parts.take_while(|&length| length > 0) {
        for from in (0..marks.len()).step_by(part).take(64) {
            found.push(emptied(marks, from, marks.len().min(from + part)));
        }
    }
    found
}

/// A plan and its marks made smaller together, so that each word that stays keeps its mark; where
/// the marks are of another length, the plan alone.
fn smaller_marked(plan: &[u8], marks: &[u8]) -> Vec<(Vec<u8>, Vec<u8>)> {
    let marked = |cut: Cut| match plan.len() == marks.len() {
        true => (cut.of(plan, 0), cut.of(marks, marks[cut.whole.end - 1])),
        false => (cut.of(plan, 0), marks.to_vec()),
    };
    cuts(plan).into_iter().map(marked).collect()
}

/// Subplans, the plan with a subplan replaced by one of its operands or by an action, and the
/// bytes with a part left out.
fn smaller_plans(plan: &[u8]) -> Vec<Vec<u8>> {
    cuts(plan).iter().map(|cut| cut.of(plan, 0)).collect()
}

/// How a plan is made smaller: of the bytes in a range a part is kept, or one byte stands for
/// them all.
struct Cut {
    whole: Range<usize>,
    kept: Option<Range<usize>>,
}

impl Cut {
    /// The bytes made smaller, with this one where one stands for a range.
    fn of(&self, bytes: &[u8], instead: u8) -> Vec<u8> {
        let (before, behind) = (&bytes[..self.whole.start], &bytes[self.whole.end..]);
        match &self.kept {
            Some(kept) => [before, &bytes[kept.clone()], behind].concat(),
            None => [before, &[instead], behind].concat(),
        }
    }

    /// How many bytes are left out.
    fn less(&self) -> usize {
        self.whole.len() - self.kept.as_ref().map_or(1, Range::len)
    }
}

/// A range left out.
fn left_out(whole: Range<usize>) -> Cut {
    let kept = Some(whole.start..whole.start);
    Cut { whole, kept }
}

/// How a plan can be made smaller.
fn cuts(plan: &[u8]) -> Vec<Cut> {
    let mut found = Vec::new();
    if judge(&any_actions(), plan).is_ok() {
        found.extend(bold_cuts(plan));
        for place in (0..plan.len()).rev().take(64) {
            found.extend(cuts_at(plan, place));
        }
    } else {
        let lengths = smaller_numbers(plan.len()).into_iter();
        found.extend(lengths.map(|length| left_out(length..plan.len())));
        found.extend((0..plan.len().min(64)).map(|at| left_out(at..at + 1)));
    }
    found
}

/// Of the subplan at a place one operand is kept, or one byte stands for it.
fn cuts_at(plan: &[u8], place: usize) -> Vec<Cut> {
    let whole = place + 1 - subplan(plan, place).len()..place + 1;
    let (mut found, mut end) = (Vec::new(), place);
    for _ in 0..operands(plan[place]) {
        let from = end - subplan(plan, end - 1).len();
        found.push(Cut {
            whole: whole.clone(),
            kept: Some(from..end),
        });
        end = from;
    }
    found.push(Cut { whole, kept: None });
    found
}

/// Of a long plan, the subplans at a few places all over it, and the cuts there that leave out
/// much; the most first.
fn bold_cuts(plan: &[u8]) -> Vec<Cut> {
    let (words, part) = (plan.len(), plan.len() / 16);
    let mut found = Vec::new();
    if words <= 64 {
        return found;
    }
    for place in (0..words).step_by(part) {
        found.push(Cut {
            whole: 0..words,
            kept: Some(place + 1 - subplan(plan, place).len()..place + 1),
        });
        found.extend(cuts_at(plan, place));
    }
    found.retain(|cut| cut.less() >= part);
    found.sort_by_key(|cut| Reverse(cut.less()));
    found
}

/// Of a text without fault, the texts of smaller plans, so that brackets go in pairs, the shortest
/// first: each with how many words it has less, and with none, for an area that stays as it is.
fn smaller_told(text: &[u8]) -> Vec<(Vec<u8>, usize)> {
    let mut plan = vec![0; LONGEST_PLAN];
    let Ok(size) = read_text(&any_actions(), text, &mut plan) else {
        return Vec::new();
    };
    let mut plans = smaller_plans(&plan[..size]);
    plans.sort_by_key(Vec::len);
    let told = plans.iter().map(|plan| (typed(plan), size - plan.len()));
    told.flat_map(|(text, less)| [(text.clone(), less), (text, 0)])
        .collect()
}

/// Beginnings, the text without its letters, and the text with some characters left out, as many
/// as a half at first and one at last; an even number before, so that a sum of actions stays one.
fn smaller_texts(text: &[u8]) -> Vec<Vec<u8>> {
    let beginnings = smaller_numbers(text.len()).into_iter();
    let mut found: Vec<Vec<u8>> = beginnings.map(|length| text[..length].to_vec()).collect();
    found.push(without_letters(text));
    let halves = iter::successors(Some(text.len()), |length| Some(length / 2));
    let parts = halves.skip(1).take_while(|&length| length > 0);
    for part in parts.map(|length| length.max(2) / 2 * 2).chain([1]) {
        for from in (0..text.len()).step_by(part).take(64) {
            let to = text.len().min(from + part);
            found.push([&text[..from], &text[to..]].concat());
        }
    }
    found
}

/// The text without every `T`, and every `H` with what is behind it.
fn without_letters(text: &[u8]) -> Vec<u8> {
    let mut found = Vec::new();
    let mut characters = text.iter();
    while let Some(&character) = characters.next() {
        match character {
            b'T' => {}
            b'H' => drop(characters.next()),
            _ => found.push(character),
        }
    }
    found
}

/// Tables with as many actions as there can be, in which nothing happens.
fn any_actions() -> Vec<u8> {
    let mut tables = vec![0; TABLES_LENGTH];
    tables[0] = 31;
    tables[1026..1057].fill(1);
    tables
}

/// The trial tables, tables with fewer actions or a part empty, and tables with one byte set
/// to zero.
fn smaller_tables(tables: &[u8]) -> Vec<Vec<u8>> {
    let mut found = vec![trial_tables()];
    if tables.len() == TABLES_LENGTH {
        let fewer = smaller_numbers(tables[0] as usize).into_iter();
        found.extend(fewer.map(|n| restricted(tables, n as u8)));
        let parts = [(1, 1025), (1057, 2049), (2049, 2305)];
        found.extend(parts.map(|(from, to)| emptied(tables, from, to)));
        found.extend((64..72).map(|row| emptied(tables, 1 + 32 * row, 33 + 32 * row)));
    }
    let set = (0..tables.len()).filter(|&index| tables[index] != 0);
    found.extend(set.take(64).map(|index| emptied(tables, index, index + 1)));
    found
}

/// The tables without the actions above n.
fn restricted(tables: &[u8], n: u8) -> Vec<u8> {
    let mut fewer = tables.to_vec();
    fewer[0] = n;
    for (index, byte) in fewer.iter_mut().enumerate().skip(1) {
        let (row, column) = ((index - 1) / 32, (index - 1) % 32);
        let beyond = column > n as usize || row < 64 && row % 32 > n as usize;
        if beyond || (row < 32 && *byte > n) {
            *byte = 0;
        }
    }
    fewer
}

/// The bytes with some of them zero.
fn emptied(bytes: &[u8], from: usize, to: usize) -> Vec<u8> {
    let mut emptied = bytes.to_vec();
    emptied[from..to].fill(0);
    emptied
}

/// Beginnings in whole blocks; of an accepted file, one with smaller tables or a smaller plan.
fn smaller_files(file: &[u8]) -> Vec<Vec<u8>> {
    let mut found = vec![Vec::new(), file[..file.len().min(6 * 512)].to_vec()];
    found.push(file[..file.len().saturating_sub(512)].to_vec());
    let (mut tables, mut plan) = (vec![0; TABLES_LENGTH], vec![0; file.len()]);
    if let Ok(size) = read_station(file, &mut tables, &mut plan) {
        let plan = &plan[..size];
        found.extend(
            smaller_plans(plan)
                .iter()
                .map(|plan| station_file(&tables, plan)),
        );
        found.extend(
            smaller_tables(&tables)
                .iter()
                .map(|tables| station_file(tables, plan)),
        );
    }
    found
}
