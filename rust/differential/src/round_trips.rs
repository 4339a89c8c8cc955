//! Round trips of a station file: what an implementation writes, it is handed to read, and what it
//! reads, it is handed to write.

use crate::cases::{Case, Outcome};
use crate::implementation::Implementation;
use reference::random::stations::{reread_case, rewrite_case, StationCase, WriteCase};
use reference::random::Random;
use reference::tables::TABLES_LENGTH;

/// What is handed to the writer of station files, and then, with the file that it leaves, to the
/// reader.
#[derive(Clone, Debug)]
pub struct RereadCase {
    /// What the writer is handed.
    pub writing: WriteCase,
    /// The reader's tables area, with the bytes it has before.
    pub tables: Vec<u8>,
    /// The reader's plan area, with the bytes it has before.
    pub plan: Vec<u8>,
}

impl RereadCase {
    /// The written file read, in areas that hold tables and plan: none where the writer refuses.
    pub(crate) fn of(random: &mut Random, writing: &WriteCase) -> Option<RereadCase> {
        let reading = reread_case(random, writing)?;
        Some(RereadCase {
            writing: writing.clone(),
            tables: reading.tables,
            plan: reading.plan,
        })
    }

    /// Writes, and reads what was written. The outcome is that of the reading, with that of the
    /// writing before it; or that of the writing, where it is refused.
    pub(crate) fn run(&self, implementation: &impl Implementation) -> Outcome {
        let written = Case::WriteStation(self.writing.clone()).run(implementation);
        let Some(file) = first_part(&written, 0, written.answer.values[0]) else {
            return written;
        };
        let reading = StationCase {
            file,
            tables: self.tables.clone(),
            plan: self.plan.clone(),
        };
        let read = Case::ReadStation(reading).run(implementation);
        Outcome {
            before: vec![written],
            ..read
        }
    }
}

/// What is handed to the reader of station files, and then, with the tables and the plan that it
/// leaves, to the writer.
#[derive(Clone, Debug)]
pub struct RewriteCase {
    /// What the reader is handed.
    pub reading: StationCase,
    /// The writer's area, with the bytes it has before.
    pub area: Vec<u8>,
}

impl RewriteCase {
    /// What was read written, in an area that holds the file: none where the reader refuses.
    pub(crate) fn of(random: &mut Random, reading: &StationCase) -> Option<RewriteCase> {
        let writing = rewrite_case(random, reading)?;
        Some(RewriteCase {
            reading: reading.clone(),
            area: writing.area,
        })
    }

    /// Reads, and writes what was read. The outcome is that of the writing, with that of the
    /// reading before it; or that of the reading, where it is refused.
    pub(crate) fn run(&self, implementation: &impl Implementation) -> Outcome {
        let read = Case::ReadStation(self.reading.clone()).run(implementation);
        let tables = first_part(&read, 0, TABLES_LENGTH);
        let plan = first_part(&read, 1, read.answer.values[0]);
        let (Some(tables), Some(plan)) = (tables, plan) else {
            return read;
        };
        let writing = WriteCase {
            tables,
            plan,
            area: self.area.clone(),
        };
        let written = Case::WriteStation(writing).run(implementation);
        Outcome {
            before: vec![read],
            ..written
        }
    }
}

/// The first so many bytes of a slice that a call left, or all that there are; none where the call
/// was refused.
pub(crate) fn first_part(outcome: &Outcome, slice: usize, length: usize) -> Option<Vec<u8>> {
    let left = &outcome.lent[slice];
    (outcome.answer.number == 0).then(|| left[..left.len().min(length)].to_vec())
}
