//! Random rewritings: derivations by all thirty-two laws, forwards and backwards, and damaged ones.

use super::backwards::{any_step_back, left_side_of, near_step_back, no_plan};
use super::plans::{action, plan, small_plan};
use super::Random;
use crate::checking::step;
use crate::laws::{apply, laws_at, LAWS};
use crate::plans::{judge_plan, operands, starts, CHOICE, LONGEST_PLAN};
use crate::records::{first_record, record_backwards, Record, BACKWARDS};
use crate::turning::{turned, turned_round};
use crate::unfolding::record;
use std::ops::Range;

/// A rewriting with the plans it goes through.
#[derive(Clone, Debug)]
pub struct Derivation {
    /// The first plan.
    pub start: Vec<u8>,
    /// The records.
    pub rewriting: Vec<u8>,
    /// The last plan.
    pub end: Vec<u8>,
    /// The words of the longest plan.
    pub longest: usize,
}

impl Derivation {
    /// A derivation without a step.
    fn begin(plan: &[u8]) -> Derivation {
        Derivation {
            start: plan.to_vec(),
            rewriting: Vec::new(),
            end: plan.to_vec(),
            longest: plan.len(),
        }
    }

    /// Goes on with a step that fits. Answers the plan before it; none where the next plan has more
    /// than so many words, and the step is not made.
    fn advance(&mut self, tables: &[u8], record: &[u8], most_words: usize) -> Option<Vec<u8>> {
        let (read, _) = first_record(record).expect("a record");
        let next = step(tables, &self.end, &read).expect("the law fits");
        (next.len() <= most_words).then(|| {
            self.rewriting.extend(record);
            self.longest = self.longest.max(next.len());
            std::mem::replace(&mut self.end, next)
        })
    }

    /// The derivation from the end to the start.
    pub fn turned_round(self, tables: &[u8]) -> Derivation {
        let rewriting = turned_round(tables, &self.start, &self.rewriting);
        Derivation {
            rewriting: rewriting.expect("every step fits"),
            start: self.end,
            end: self.start,
            longest: self.longest,
        }
    }
}

/// A derivation from an accepted plan, by any laws at any places, of at most so many
/// steps, through plans of at most so many words. All steps go forwards.
pub fn derivation(
    random: &mut Random,
    tables: &[u8],
    plan: &[u8],
    most_steps: usize,
    most_words: usize,
) -> Derivation {
    let mut made = Derivation::begin(plan);
    for _ in 0..most_steps {
        let Some((law, place)) = any_step(random, tables, &made.end) else {
            break;
        };
        let before = made.advance(tables, &record(law, place), most_words);
        if before.is_none() {
            break;
        }
    }
    made
}

/// The same, with steps that go forwards, backwards, or back from where the last one came.
pub fn derivation_both_ways(
    random: &mut Random,
    tables: &[u8],
    plan: &[u8],
    most_steps: usize,
    most_words: usize,
) -> Derivation {
    let mut made = Derivation::begin(plan);
    let mut last: Option<(Vec<u8>, Vec<u8>)> = None;
    for _ in 0..most_steps {
        let record = match (random.below(5), &last) {
            (0, Some((before, record))) => Some(undone(before, record, made.end.len())),
            (0 | 1, _) => forwards(random, tables, &made.end),
            _ => backwards(random, tables, &made.end),
        };
        let Some(record) = record else {
            continue;
        };
        if let Some(before) = made.advance(tables, &record, most_words) {
            last = Some((before, record));
        }
    }
    made
}

fn forwards(random: &mut Random, tables: &[u8], plan: &[u8]) -> Option<Vec<u8>> {
    let (law, place) = any_step(random, tables, plan)?;
    Some(record(law, place).to_vec())
}

fn backwards(random: &mut Random, tables: &[u8], plan: &[u8]) -> Option<Vec<u8>> {
    let (law, place, left) = any_step_back(random, tables, plan)?;
    Some(record_backwards(law, place, &left))
}

/// The step back to the plan before the last step.
fn undone(before: &[u8], record: &[u8], words: usize) -> Vec<u8> {
    let (record, _) = first_record(record).expect("a record");
    turned(before, &record, words).expect("a law")
}

/// A law that fits, and a place where it does; sought from a random place on.
pub fn any_step(random: &mut Random, tables: &[u8], plan: &[u8]) -> Option<(u8, usize)> {
    let first = random.below(plan.len());
    let places = (0..plan.len().min(64)).map(|further| (first + further) % plan.len());
    for place in places.filter(|&place| operands(plan[place]) > 0) {
        let laws = laws_at(tables, plan, place);
        if !laws.is_empty() {
            return Some((favoured(random, &laws), place));
        }
    }
    None
}

/// One of the laws; of several, seldom 1 to 3, which fit at almost every sum.
fn favoured(random: &mut Random, laws: &[u8]) -> u8 {
    let law = random.pick(laws);
    match law {
        1..=3 => random.pick(laws),
        _ => law,
    }
}

/// Where the bytes of each whole record stand.
pub fn spans(rewriting: &[u8]) -> Vec<Range<usize>> {
    let (mut spans, mut rest) = (Vec::new(), rewriting);
    while let Some((_, behind)) = first_record(rest) {
        spans.push(rewriting.len() - rest.len()..rewriting.len() - behind.len());
        rest = behind;
    }
    spans
}

/// The rewriting with damage; by chance, it may still be a right one. `end` is the last plan, and
/// the tables are accepted ones.
pub fn damage_rewriting(random: &mut Random, tables: &[u8], rewriting: &mut Vec<u8>, end: &[u8]) {
    let words = end.len();
    match random.below(5) {
        0 => damage_end(random, tables, rewriting),
        1 => put_any(random, tables, rewriting, words),
        2 => damage_record(random, tables, rewriting, words),
        3 => go_on_backwards(random, tables, rewriting, end),
        _ => put_refused(random, tables, rewriting, words),
    }
}

/// Goes on from the last plan with a step backwards that fits, or misses it by little: by what the
/// tables say, by its law or its place, or because it carries the words around as well.
fn go_on_backwards(random: &mut Random, tables: &[u8], rewriting: &mut Vec<u8>, end: &[u8]) {
    let (law, place, left) = near_step_back(random, tables, end);
    let mut record = record_backwards(law, place, &left);
    match random.below(8) {
        0 => neighbour(random, &mut record[0]),
        1 => neighbour(random, &mut record[1]),
        // Right past the end, with what would be carried at the last word.
        2 => {
            let left = [end, &[0, CHOICE]].concat();
            record = record_backwards(7, end.len(), &left);
        }
        3 => {
            if let Some((place, around)) = with_words_around(end, place, &left) {
                record = record_backwards(law, place, &around);
            }
        }
        _ => {}
    }
    rewriting.extend(record);
}

/// The place of the least subplan around the one at a place, and its words with those given instead
/// of the latter; none where that is the whole plan, or there are too many.
fn with_words_around(plan: &[u8], place: usize, instead: &[u8]) -> Option<(usize, Vec<u8>)> {
    let starts = starts(plan);
    let around = (place + 1..plan.len()).find(|&last| starts[last] <= place)?;
    let before = &plan[starts[around]..starts[place]];
    let words = [before, instead, &plan[place + 1..=around]].concat();
    (words.len() <= LONGEST_PLAN).then_some((around, words))
}

/// Puts one record in that is refused, or two, so that their order counts.
fn put_refused(random: &mut Random, tables: &[u8], rewriting: &mut Vec<u8>, words: usize) {
    match random.below(4) {
        0 => put_unknown(random, tables, rewriting),
        1 => put_no_plan(random, tables, rewriting, words),
        2 => {
            put_no_plan(random, tables, rewriting, words);
            put_no_plan(random, tables, rewriting, words);
        }
        _ => {
            put_no_plan(random, tables, rewriting, words);
            put_unknown(random, tables, rewriting);
        }
    }
}

/// Cuts the last record short at one of its bytes, or puts a part of a record behind it.
fn damage_end(random: &mut Random, tables: &[u8], rewriting: &mut Vec<u8>) {
    let last = spans(rewriting).pop();
    match (random.below(3), last) {
        (0 | 1, Some(last)) => {
            let kept = cut_short(random, last.len());
            rewriting.truncate(last.start + kept);
        }
        (0, _) => rewriting.extend(vec![1; random.between(1, 2)]),
        _ => {
            let left = small_plan(random, tables[0], 7);
            let back = record_backwards(any_law(random), 0, &left);
            let kept = cut_short(random, back.len());
            rewriting.extend(&back[..kept]);
        }
    }
}

/// How many of a record's bytes are kept, at least one: a part of law and place, of the length, or
/// of the words.
fn cut_short(random: &mut Random, length: usize) -> usize {
    let kept = match random.below(3) {
        0 => random.between(1, 2),
        1 => random.between(3, 4),
        _ => random.between(5, length.max(6) - 1),
    };
    kept.min(length - 1)
}

/// Puts a record in at which a law hardly fits.
fn put_any(random: &mut Random, tables: &[u8], rewriting: &mut Vec<u8>, words: usize) {
    let place = match random.below(3) {
        0 => words,
        1 => edge_place(random, words),
        _ => random.below(words),
    };
    let law = any_law(random);
    let record = match random.once_in(2) {
        true => record(law, place).to_vec(),
        false => record_backwards(law, place, &any_left(random, tables[0])),
    };
    put(random, rewriting, &record);
}

/// A left side that is an accepted plan: a small one, or seldom one as long as can be.
fn any_left(random: &mut Random, n: u8) -> Vec<u8> {
    if random.once_in(16) {
        let size = LONGEST_PLAN - random.below(2);
        return plan(random, n, size);
    }
    small_plan(random, n, 7)
}

/// Puts a record with an unknown first byte in, at times with bytes behind as if it went backwards.
fn put_unknown(random: &mut Random, tables: &[u8], rewriting: &mut Vec<u8>) {
    let mut record = record(random.pick(&NO_LAWS), 0).to_vec();
    match random.below(6) {
        0 => record.extend([0, 0]),
        1 => {
            let left = small_plan(random, tables[0], 7);
            record.extend([left.len() as u8, 0]);
            record.extend(left);
        }
        2 => record.extend(vec![record[0]; 3]),
        _ => {}
    }
    put(random, rewriting, &record);
}

/// Puts a step backwards in whose left side is not an accepted plan.
fn put_no_plan(random: &mut Random, tables: &[u8], rewriting: &mut Vec<u8>, words: usize) {
    let left = no_plan(random, tables[0]);
    let record = record_backwards(any_law(random), random.below(words), &left);
    put(random, rewriting, &record);
}

/// Changes one of the records, or leaves it out, or puts it in twice.
fn damage_record(random: &mut Random, tables: &[u8], rewriting: &mut Vec<u8>, words: usize) {
    let spans = spans(rewriting);
    if spans.is_empty() {
        return put_any(random, tables, rewriting, words);
    }
    let span = random.pick(&spans);
    let at = span.start;
    let bytes = rewriting[span.clone()].to_vec();
    let (record, _) = first_record(&bytes).expect("a whole record");
    match (random.below(10), record.left, record.law()) {
        (0, ..) => rewriting[at] = rewriting[at] & BACKWARDS | any_law(random),
        (1, ..) => drop(rewriting.drain(span)),
        (2, ..) => drop(rewriting.splice(at..at, bytes)),
        (3, ..) => neighbour(random, &mut rewriting[at]),
        (4, ..) => neighbour(random, &mut rewriting[at + 1]),
        // The other way, whatever the bytes behind then are.
        (5, ..) => rewriting[at] ^= BACKWARDS,
        (6, Some(_), _) => damage_length(random, &mut rewriting[at + 3..at + 5]),
        (_, Some(left), Some(law)) => {
            let other = other_left(random, tables, law, left);
            let left = Some(&other[..]);
            rewriting.splice(span, Record { left, ..record }.bytes());
        }
        _ => put_any(random, tables, rewriting, words),
    }
}

/// One word more or less, or the bytes exchanged.
fn damage_length(random: &mut Random, length: &mut [u8]) {
    match random.below(3) {
        0 => length.swap(0, 1),
        _ => neighbour(random, &mut length[0]),
    }
}

/// A left side in the place of one that fits: another one that the law takes to the same plan, where
/// it forgets a part, or to another plan; or none that is a plan.
fn other_left(random: &mut Random, tables: &[u8], law: u8, left: &[u8]) -> Vec<u8> {
    let n = tables[0];
    let mut other = left.to_vec();
    match random.below(6) {
        0 => no_plan(random, n),
        1 => small_plan(random, n, 7),
        2 | 3 if judge_plan(tables, left).is_ok() => {
            let right = apply(tables, left, law, left.len() - 1);
            let again = right.and_then(|right| left_side_of(random, tables, law, &right));
            again.unwrap_or(other)
        }
        _ => {
            let places: Vec<usize> = (0..left.len()).filter(|&at| left[at] < 32).collect();
            if !places.is_empty() {
                other[random.pick(&places)] = action(random, n);
            }
            other
        }
    }
}

/// Bytes that are no law's number, nor 128 more than one.
const NO_LAWS: [u8; 8] = [
    0,
    LAWS + 1,
    LAWS + 2,
    BACKWARDS - 1,
    BACKWARDS,
    BACKWARDS + LAWS + 1,
    BACKWARDS + LAWS + 2,
    255,
];

fn any_law(random: &mut Random) -> u8 {
    random.between(1, LAWS as usize) as u8
}

/// A place at an edge of the plan, or far past its end.
fn edge_place(random: &mut Random, words: usize) -> usize {
    random.pick(&[0, words - 1, words + 1, 255, 256, 16_383, 16_384, 65_535])
}

/// One more or one less: a law much like the one that fits, or the place beside.
fn neighbour(random: &mut Random, byte: &mut u8) {
    *byte = random.pick(&[byte.wrapping_add(1), byte.wrapping_sub(1)]);
}

/// Puts a record in, before one of the others or at the end.
fn put(random: &mut Random, rewriting: &mut Vec<u8>, record: &[u8]) {
    let mut places: Vec<usize> = spans(rewriting).iter().map(|span| span.start).collect();
    places.push(rewriting.len());
    let at = random.pick(&places);
    rewriting.splice(at..at, record.iter().copied());
}
