//! The records of a rewriting, from left to right and from right to left, cut one after another; and
//! which of them are refused.

use reference::laws::LAWS;
use reference::plans::judge_plan;
use reference::records::BACKWARDS;
use reference::Refusal;

/// One record.
pub struct Step<'r> {
    /// The first byte: a law's number, 128 more than one, or neither.
    first: u8,
    /// The place.
    pub place: usize,
    /// The left side that a step from right to left carries.
    pub left: Option<&'r [u8]>,
}

impl Step<'_> {
    /// The law, whichever way the step goes, where the first byte names one.
    pub fn law(&self) -> u8 {
        self.first % BACKWARDS
    }
}

/// The records not cut yet. What is left in the end is the last record, cut short, or nothing.
pub struct Steps<'r> {
    rest: &'r [u8],
}

impl<'r> Steps<'r> {
    /// All records of a rewriting.
    pub fn of(rewriting: &'r [u8]) -> Steps<'r> {
        Steps { rest: rewriting }
    }
}

impl<'r> Iterator for Steps<'r> {
    type Item = Step<'r>;

    fn next(&mut self) -> Option<Step<'r>> {
        let (&[first, low, high], behind) = self.rest.split_first_chunk()?;
        let place = u16::from_le_bytes([low, high]).into();
        let (left, behind) = match goes_back(first) {
            true => {
                let (&length, words) = behind.split_first_chunk()?;
                let (left, behind) = words.split_at_checked(u16::from_le_bytes(length).into())?;
                (Some(left), behind)
            }
            false => (None, behind),
        };
        self.rest = behind;
        Some(Step { first, place, left })
    }
}

/// Whether the first byte of a record is that of a step from right to left.
fn goes_back(first: u8) -> bool {
    (BACKWARDS + 1..=BACKWARDS + LAWS).contains(&first)
}

/// Judges the records of a rewriting: 16, 17, 75.
pub fn judge_records(tables: &[u8], rewriting: &[u8]) -> Result<(), Refusal> {
    let (mut steps, mut unknown, mut no_plan) = (Steps::of(rewriting), None, None);
    for (index, step) in steps.by_ref().enumerate() {
        match step.left {
            // All first bytes are judged before the first left side is.
            Some(left) if no_plan.is_none() && judge_plan(tables, left).is_err() => {
                no_plan = Some(index);
            }
            None if unknown.is_none() && !(1..=LAWS).contains(&step.first) => {
                unknown = Some(index);
            }
            _ => {}
        }
    }
    if !steps.rest.is_empty() {
        return Err(Refusal::nowhere(16));
    }
    let refused = |number, found: Option<usize>| match found {
        Some(index) => Err(Refusal::at_step(number, index)),
        None => Ok(()),
    };
    refused(17, unknown)?;
    refused(75, no_plan)
}
