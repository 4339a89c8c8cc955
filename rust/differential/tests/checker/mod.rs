//! A copy of the reference's checker, with one thing changed.

use crate::Damage::*;
use crate::{is_refusal, refusal, Damaged};
use differential::{Answer, Call, Implementation, Reference};
use reference::laws::apply;
use reference::plans::{judge_plan, subplan, LONGEST_PLAN};
use reference::runs::Run;

/// One record, and the index of its first byte.
struct Record<'r> {
    first: u8,
    place: usize,
    left: Option<&'r [u8]>,
    at: usize,
}

/// How a rewriting was replayed.
struct Replayed {
    number: u8,
    run: Run,
    /// The bytes of the records whose steps were made.
    bytes: usize,
    /// The steps made that went backwards.
    backwards: usize,
}

impl Damaged {
    pub(crate) fn check_rewriting(
        &self,
        tables: &[u8],
        start: &[u8],
        claimed: &[u8],
        rewriting: &[u8],
        a: &mut [u8],
        b: &mut [u8],
    ) -> Answer {
        // Without a step it is refused for tables, plans and areas alone.
        let (mut kept_a, mut kept_b) = (a.to_vec(), b.to_vec());
        let (kept_a, kept_b) = (&mut kept_a[..], &mut kept_b[..]);
        let handed_in = Call::CheckRewriting(tables, start, claimed, &[], kept_a, kept_b);
        let answer = Reference.answer(handed_in);
        if is_refusal(answer) {
            return answer;
        }
        let room = a.len().min(b.len()).min(LONGEST_PLAN);
        let Some(records) = self.cut(rewriting) else {
            return refusal(16);
        };
        if let Some(refused) = self.refused(tables, &records, room) {
            return refused;
        }
        let mut replayed = self.replay(tables, start, &records, room);
        let run = &mut replayed.run;
        let (steps, size) = (run.steps, run.plan.len());
        if replayed.number == 75 {
            let place = steps;
            return Answer {
                place,
                ..refusal(75)
            };
        }
        if replayed.number == 0 && !self.is_claimed(&run.plan, claimed) {
            replayed.number = 33;
        }
        if self.0 == BackParity {
            run.steps = replayed.bytes / 3;
        }
        run.leave_in(a, b);
        let steps = match self.0 {
            BackSteps => steps - replayed.backwards,
            _ => steps,
        };
        Answer::ended(replayed.number, [steps, size])
    }

    fn is_claimed(&self, plan: &[u8], claimed: &[u8]) -> bool {
        let (last, size) = (plan.len() - 1, plan.len());
        match self.0 {
            Claim => size == claimed.len() && plan[..last] == claimed[..last],
            _ => plan == claimed,
        }
    }

    fn is_law(&self, number: u8) -> bool {
        match self.0 {
            Laws => (1..=31).contains(&number),
            _ => (1..=32).contains(&number),
        }
    }

    /// Whether a record with this first byte carries a left side.
    fn carries(&self, first: u8) -> bool {
        match (self.0, first) {
            (BackZero, 128) | (BackAbove, 161) => true,
            (BackTop, 160) => false,
            _ => first > 128 && self.is_law(first - 128),
        }
    }

    /// The records; none where the last one is cut short.
    fn cut<'r>(&self, rewriting: &'r [u8]) -> Option<Vec<Record<'r>>> {
        if self.0 == BackThrees && !rewriting.len().is_multiple_of(3) {
            return None;
        }
        let (mut records, mut at) = (Vec::new(), 0);
        while at < rewriting.len() {
            let bytes = &rewriting[at..];
            let (record, length) = self.first_record(bytes, at)?;
            records.push(record);
            at += length;
        }
        Some(records)
    }

    /// The first record, whose bytes begin at this index, and how many it has.
    fn first_record<'r>(&self, bytes: &'r [u8], at: usize) -> Option<(Record<'r>, usize)> {
        let first = bytes[0];
        let mut record = Record {
            first,
            place: 0,
            left: None,
            at,
        };
        let unknown = !self.carries(first) && !self.is_law(first);
        if self.0 == BackUnknown && unknown {
            return Some((record, 1));
        }
        let weight = if self.0 == PlaceWeight { 255 } else { 256 };
        record.place = *bytes.get(1)? as usize + weight * *bytes.get(2)? as usize;
        if !self.carries(first) {
            return Some((record, 3));
        }
        let (low, high) = (*bytes.get(3)? as usize, *bytes.get(4)? as usize);
        let length = match self.0 {
            BackHigh => 256 * low + high,
            BackByte => low,
            BackTail => (low + 256 * high).min(bytes.len() - 5),
            _ => low + 256 * high,
        };
        record.left = Some(bytes.get(5..5 + length)?);
        Some((record, 5 + length))
    }

    /// What the records are refused with, before any step.
    fn refused(&self, tables: &[u8], records: &[Record], room: usize) -> Option<Answer> {
        let at = |number, index: usize| Answer {
            place: match (self.0, number) {
                (FirstStep, 17) => index + 1,
                (BackNowhere, 75) => 0,
                (BackThirds, _) => records[index].at / 3,
                _ => index,
            },
            ..refusal(number)
        };
        let unknown = |record: &Record| match record.left {
            Some(_) => !self.is_law(record.first - 128),
            None => !self.is_law(record.first),
        };
        let no_plan = |record: &Record| self.carries_no_plan(tables, record, room);
        let unknown = records.iter().position(unknown).map(|index| at(17, index));
        let no_plan = match self.0 {
            BackLate => None,
            BackLast => records.iter().rposition(no_plan),
            _ => records.iter().position(no_plan),
        };
        let no_plan = no_plan.map(|index| at(75, index));
        match self.0 {
            BackOrder => no_plan.or(unknown),
            _ => unknown.or(no_plan),
        }
    }

    fn carries_no_plan(&self, tables: &[u8], record: &Record, room: usize) -> bool {
        let Some(left) = record.left else {
            return false;
        };
        let judged = match self.0 {
            BackActions => judge_plan(&[31], left),
            _ => judge_plan(tables, left),
        };
        let number = judged.map_or_else(|refusal| refusal.number, |()| 0);
        match (self.0, number) {
            (BackRoom, 0) => left.len() > room,
            (BackLong, 0) => left.len() == LONGEST_PLAN,
            (BackEmpty, 11) => !left.is_empty(),
            (BackOver, 14) => false,
            _ => number > 0,
        }
    }

    /// Makes the steps: 31, 32, or 0 where all are made; 75 where a left side is judged only now.
    fn replay(&self, tables: &[u8], start: &[u8], records: &[Record], room: usize) -> Replayed {
        let mut replayed = Replayed {
            number: 0,
            run: Run::begin(start),
            bytes: 0,
            backwards: 0,
        };
        for record in records {
            let plan = &replayed.run.plan;
            if self.0 == BackLate && self.carries_no_plan(tables, record, room) {
                replayed.number = 75;
                return replayed;
            }
            let next = self.step(tables, plan, record);
            let number = self.turned_back(plan, record, next.as_deref(), room);
            let (Some(next), 0) = (next, number) else {
                replayed.number = number;
                return replayed;
            };
            let length = record.left.map_or(3, |left| 5 + left.len());
            replayed.bytes += length;
            replayed.backwards += usize::from(record.left.is_some());
            replayed.run = replayed.run.advance(next);
        }
        replayed
    }

    /// 31, 32, or 0 where the step is made.
    fn turned_back(&self, plan: &[u8], record: &Record, next: Option<&[u8]>, room: usize) -> u8 {
        let (left, back) = (record.left.map_or(0, <[u8]>::len), record.left.is_some());
        match (self.0, next) {
            (BackLonger, _) if left > room => 32,
            (_, None) => 31,
            (BackBoth, Some(_)) if back && plan.len() + left > room => 32,
            (BackTight, Some(next)) if back && next.len() == room => 32,
            (_, Some(next)) if next.len() > room => 32,
            _ => 0,
        }
    }

    fn step(&self, tables: &[u8], plan: &[u8], record: &Record) -> Option<Vec<u8>> {
        match record.left {
            None => apply(tables, plan, record.first, record.place),
            Some(left) => {
                let law = record.first - 128;
                self.step_backwards(tables, plan, law, record.place, left)
            }
        }
    }

    fn step_backwards(
        &self,
        tables: &[u8],
        plan: &[u8],
        law: u8,
        place: usize,
        left: &[u8],
    ) -> Option<Vec<u8>> {
        let rights = self.rights(tables, law, left);
        let place = match self.0 {
            BackMoved => (place + rights.first()?.len()).checked_sub(left.len())?,
            BackPast => place.min(plan.len() - 1),
            _ => place,
        };
        if place >= plan.len() {
            return None;
        }
        let replaced = subplan(plan, place);
        let fits = match self.0 {
            BackAny => !rights.is_empty(),
            BackLength => rights.iter().any(|right| right.len() == replaced.len()),
            BackForwards => apply(tables, replaced, law, replaced.len() - 1)? == left,
            _ => rights.iter().any(|right| right == replaced),
        };
        let (before, behind) = (&plan[..place + 1 - replaced.len()], &plan[place + 1..]);
        fits.then(|| match self.0 {
            BackWhole => left.to_vec(),
            BackRight => plan.to_vec(),
            _ => [before, left, behind].concat(),
        })
    }

    /// What the law gives, applied to the left side.
    fn rights(&self, tables: &[u8], law: u8, left: &[u8]) -> Vec<Vec<u8>> {
        let places = match self.0 {
            _ if left.is_empty() => 0..0,
            BackFirst => 0..1,
            BackInner => 0..left.len(),
            _ => left.len() - 1..left.len(),
        };
        let tables = match self.0 {
            BackConditions => unconditional(tables, law),
            _ => tables.to_vec(),
        };
        let given = places.filter_map(|place| apply(&tables, left, law, place));
        given.collect()
    }
}

/// Tables under which the law's condition holds of every action.
fn unconditional(tables: &[u8], law: u8) -> Vec<u8> {
    let mut tables = tables.to_vec();
    match law {
        20 => tables[2049..].fill(0),
        21 => tables[2049..].fill(1),
        24 => tables[1025..2049].fill(0),
        25 => tables[1025..2049].fill(1),
        _ => {}
    }
    tables
}
