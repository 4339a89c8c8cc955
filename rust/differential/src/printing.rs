//! Cases and differences as text.

use crate::cases::{Case, Outcome};
use crate::compare::{Agreement, Difference};
use reference::random::cases::{CheckCase, UnfoldCase};
use reference::random::forms::FormCase;
use reference::random::stations::{StationCase, WriteCase};
use reference::random::walks::FreshWalkCase;
use reference::records::first_record;
use std::fmt;

/// Bytes: as they are, or in short where there are many and all are the same, or very many and most
/// are zero.
struct Bytes<'t>(&'t [u8]);

/// From so many on, bytes are very many: tables, or a station file.
const VERY_MANY: usize = 512;

impl fmt::Display for Bytes<'_> {
    fn fmt(&self, f: &mut fmt::Formatter<'_>) -> fmt::Result {
        let bytes = self.0;
        match bytes.first() {
            Some(first) if bytes.len() > 4 && bytes.iter().all(|byte| byte == first) => {
                write!(f, "[{first}; {}]", bytes.len())
            }
            Some(_) if bytes.len() >= VERY_MANY && mostly_zero(bytes) => Sparse(bytes).fmt(f),
            _ => write!(f, "{bytes:?}"),
        }
    }
}

fn mostly_zero(bytes: &[u8]) -> bool {
    bytes.iter().filter(|&&byte| byte == 0).count() > bytes.len() / 2
}

/// Bytes most of which are zero: the length, and what is not.
struct Sparse<'t>(&'t [u8]);

impl fmt::Display for Sparse<'_> {
    fn fmt(&self, f: &mut fmt::Formatter<'_>) -> fmt::Result {
        write!(f, "{} bytes, zero but", self.0.len())?;
        for (index, byte) in self.0.iter().enumerate().filter(|(_, &byte)| byte != 0) {
            write!(f, " {index}:{byte}")?;
        }
        Ok(())
    }
}

/// The records of a rewriting, a line for each of the first ones, and what is behind the last whole
/// one.
struct Steps<'t>(&'t [u8]);

/// So many records have a line.
const MOST_STEPS: usize = 40;

impl fmt::Display for Steps<'_> {
    fn fmt(&self, f: &mut fmt::Formatter<'_>) -> fmt::Result {
        let mut rest = self.0;
        for step in 0..MOST_STEPS {
            let Some((record, behind)) = first_record(rest) else {
                break;
            };
            write!(f, "    step {step}: ")?;
            match (record.law(), record.left) {
                (None, _) => writeln!(f, "no law {}", record.first)?,
                (Some(law), None) => writeln!(f, "law {law} at {}", record.place)?,
                (Some(law), Some(left)) => {
                    let from = Bytes(left);
                    writeln!(f, "law {law} at {}, backwards to {from}", record.place)?;
                }
            }
            rest = behind;
        }
        match (rest.len(), first_record(rest)) {
            (0, _) => Ok(()),
            (bytes, Some(_)) => writeln!(f, "    further steps: {bytes} bytes"),
            (_, None) => writeln!(f, "    cut short: {}", Bytes(rest)),
        }
    }
}

impl fmt::Display for Case {
    fn fmt(&self, f: &mut fmt::Formatter<'_>) -> fmt::Result {
        match self {
            Case::JudgeTables(tables) => {
                writeln!(f, "judge_tables")?;
                writeln!(f, "  tables: {}", Sparse(tables))
            }
            Case::JudgePlan(tables, plan) => judged(f, "judge_plan", tables, plan),
            Case::IsBasic(tables, plan) => judged(f, "is_basic", tables, plan),
            Case::CountOrders(tables, plan) => judged(f, "count_orders", tables, plan),
            Case::Unfold(case) => unfolding(f, "unfold", case),
            Case::CheckRewriting(case) => checking(f, "check_rewriting", case),
            Case::TurnedRound(case) => {
                let calls = "check_rewriting, then check_rewriting turned round";
                checking(f, calls, &case.checking)?;
                writeln!(f, "  c: {}", Bytes(&case.c))?;
                writeln!(f, "  d: {}", Bytes(&case.d))
            }
            Case::ReadStation(case) => reading(f, "read_station", case),
            Case::WriteStation(case) => writing(f, "write_station", case),
            Case::Reread(case) => {
                writing(f, "write_station, then read_station", &case.writing)?;
                read_areas(f, &case.tables, &case.plan)
            }
            Case::Rewrite(case) => {
                reading(f, "read_station, then write_station", &case.reading)?;
                writeln!(f, "  file area: {}", Bytes(&case.area))
            }
            Case::UnfoldChecked(case) => {
                unfolding(f, "unfold_checked", &case.unfolding)?;
                writeln!(f, "  c: {}", Bytes(&case.c))?;
                writeln!(f, "  d: {}", Bytes(&case.d))
            }
            Case::Reached(case) => {
                writeln!(f, "reached")?;
                writeln!(f, "  a: {}", Bytes(&case.a))?;
                writeln!(f, "  b: {}", Bytes(&case.b))?;
                writeln!(f, "  steps: {}, size: {}", case.steps, case.size)?;
                writeln!(f, "  plan area: {}", Bytes(&case.plan))
            }
            Case::ListStation(case) => {
                writeln!(f, "list_station")?;
                writeln!(f, "  file: {}", Sparse(&case.file))?;
                writeln!(f, "  out: {}", Bytes(&case.out))
            }
            Case::ReadText(case) => {
                writeln!(f, "read_text")?;
                writeln!(f, "  tables: {}", Sparse(&case.tables))?;
                writeln!(f, "  text: \"{}\"", case.text.escape_ascii())?;
                writeln!(f, "  plan area: {}", Bytes(&case.plan))
            }
            Case::FreshWalk(case) => fresh_walk(f, "fresh_walk", case),
            Case::Walk(case) => {
                judged(f, "walk", &case.tables, &case.plan)?;
                progress(f, &case.marks, case.finished)?;
                writeln!(f, "  message: {}", case.message)
            }
            Case::Messages(case) => {
                fresh_walk(f, "fresh_walk, then walk", &case.fresh)?;
                writeln!(f, "  messages: {}", Bytes(&case.messages))
            }
            Case::Precedes(case) => {
                judged(f, "precedes", &case.tables, &case.plan)?;
                writeln!(f, "  first: {}, second: {}", case.first, case.second)
            }
            Case::FixForm(case) => fixing(f, "fix_form", case),
            Case::FormOfForm(case) => {
                fixing(f, "fix_form, then fix_form of the form", &case.fixing)?;
                writeln!(f, "  second form area: {}", Bytes(&case.area))
            }
            Case::TwoForms(case) => {
                fixing(f, "fix_form, then fix_form of a second plan", &case.fixing)?;
                writeln!(f, "  second plan: {}", Bytes(&case.plan))?;
                writeln!(f, "  second form area: {}", Bytes(&case.area))
            }
        }
    }
}

fn unfolding(f: &mut fmt::Formatter<'_>, call: &str, case: &UnfoldCase) -> fmt::Result {
    judged(f, call, &case.tables, &case.plan)?;
    writeln!(f, "  allowance: {}", case.allowance)?;
    writeln!(f, "  list: {}", Bytes(&case.list))?;
    writeln!(f, "  a: {}", Bytes(&case.a))?;
    writeln!(f, "  b: {}", Bytes(&case.b))
}

fn checking(f: &mut fmt::Formatter<'_>, calls: &str, case: &CheckCase) -> fmt::Result {
    judged(f, calls, &case.tables, &case.start)?;
    writeln!(f, "  claimed: {}", Bytes(&case.claimed))?;
    writeln!(f, "  rewriting: {}", Bytes(&case.rewriting))?;
    write!(f, "{}", Steps(&case.rewriting))?;
    writeln!(f, "  a: {}", Bytes(&case.a))?;
    writeln!(f, "  b: {}", Bytes(&case.b))
}

fn reading(f: &mut fmt::Formatter<'_>, calls: &str, case: &StationCase) -> fmt::Result {
    writeln!(f, "{calls}")?;
    writeln!(f, "  file: {}", Sparse(&case.file))?;
    read_areas(f, &case.tables, &case.plan)
}

fn read_areas(f: &mut fmt::Formatter<'_>, tables: &[u8], plan: &[u8]) -> fmt::Result {
    writeln!(f, "  tables area: {}", Bytes(tables))?;
    writeln!(f, "  plan area: {}", Bytes(plan))
}

fn writing(f: &mut fmt::Formatter<'_>, calls: &str, case: &WriteCase) -> fmt::Result {
    judged(f, calls, &case.tables, &case.plan)?;
    writeln!(f, "  file area: {}", Bytes(&case.area))
}

fn fixing(f: &mut fmt::Formatter<'_>, calls: &str, case: &FormCase) -> fmt::Result {
    judged(f, calls, &case.tables, &case.plan)?;
    writeln!(f, "  form area: {}", Bytes(&case.area))
}

fn fresh_walk(f: &mut fmt::Formatter<'_>, calls: &str, case: &FreshWalkCase) -> fmt::Result {
    judged(f, calls, &case.tables, &case.plan)?;
    progress(f, &case.marks, case.finished)
}

fn progress(f: &mut fmt::Formatter<'_>, marks: &[u8], finished: bool) -> fmt::Result {
    writeln!(f, "  marks: {}", Bytes(marks))?;
    writeln!(f, "  finished: {finished}")
}

fn judged(f: &mut fmt::Formatter<'_>, call: &str, tables: &[u8], plan: &[u8]) -> fmt::Result {
    writeln!(f, "{call}")?;
    writeln!(f, "  tables: {}", Sparse(tables))?;
    writeln!(f, "  plan: {}", Bytes(plan))
}

impl fmt::Display for Outcome {
    fn fmt(&self, f: &mut fmt::Formatter<'_>) -> fmt::Result {
        for before in &self.before {
            write!(f, "{before}\n    ")?;
        }
        let (number, place) = (self.answer.number, self.answer.place);
        write!(
            f,
            "number {number}, values {:?}, place {place}",
            self.answer.values
        )?;
        if self.answer.own != [0; 5] {
            write!(f, ", own {:?}", self.answer.own)?;
        }
        if let Some(finish) = self.finish {
            write!(f, ", finish {finish}")?;
        }
        for lent in &self.lent {
            write!(f, "\n    {}", Bytes(lent))?;
        }
        Ok(())
    }
}

impl fmt::Display for Difference {
    fn fmt(&self, f: &mut fmt::Formatter<'_>) -> fmt::Result {
        writeln!(
            f,
            "difference in the case of seed {}, made smaller:",
            self.seed
        )?;
        write!(f, "{}", self.case)?;
        writeln!(f, "  first: {}", self.first)?;
        writeln!(f, "  second: {}", self.second)
    }
}

impl fmt::Display for Agreement {
    fn fmt(&self, f: &mut fmt::Formatter<'_>) -> fmt::Result {
        write!(f, "cases by number:")?;
        for (number, count) in &self.numbers {
            write!(f, " {number}×{count}")?;
        }
        writeln!(f)
    }
}
