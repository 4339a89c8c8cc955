//! A rewriting cut into the records of its steps, forwards and backwards. (Request 108.)

use crate::laws::LAWS;
use crate::unfolding::record;

/// What the first byte of a step backwards is above its law: "A step whose first byte is 128 more
/// than a law's number goes backwards."
pub const BACKWARDS: u8 = 128;

/// One record.
#[derive(Clone, Copy, Debug, PartialEq, Eq)]
pub struct Record<'r> {
    /// The first byte: a law's number, 128 more than one, or neither.
    pub first: u8,
    /// The place.
    pub place: usize,
    /// The words of the left side that a step backwards carries; none in a record of three bytes.
    pub left: Option<&'r [u8]>,
}

impl Record<'_> {
    /// The law, whichever way the step goes; none where the first byte is unknown.
    pub fn law(&self) -> Option<u8> {
        match self.left {
            Some(_) => law_backwards(self.first),
            None => Some(self.first).filter(is_law),
        }
    }

    /// The record's bytes.
    pub fn bytes(&self) -> Vec<u8> {
        let mut bytes = record(self.first, self.place).to_vec();
        if let Some(left) = self.left {
            bytes.extend((left.len() as u16).to_le_bytes());
            bytes.extend(left);
        }
        bytes
    }
}

fn is_law(number: &u8) -> bool {
    (1..=LAWS).contains(number)
}

/// The law of a step backwards, by its first byte; none where this is another one.
fn law_backwards(first: u8) -> Option<u8> {
    first.checked_sub(BACKWARDS).filter(is_law)
}

/// Cuts a rewriting into its records; none where the last one is cut short.
pub fn cut(rewriting: &[u8]) -> Option<Vec<Record<'_>>> {
    let mut records = Vec::new();
    let mut rest = rewriting;
    while !rest.is_empty() {
        let (record, behind) = first_record(rest)?;
        records.push(record);
        rest = behind;
    }
    Some(records)
}

/// The first record and what is behind it; none where the record is cut short.
pub fn first_record(bytes: &[u8]) -> Option<(Record<'_>, &[u8])> {
    let (&[first, low, high], behind) = bytes.split_first_chunk()?;
    let place = two_bytes(low, high);
    // "any unknown first byte counts as a record of three"
    if law_backwards(first).is_none() {
        let left = None;
        return Some((Record { first, place, left }, behind));
    }
    // "Its place is followed by a two-byte length, low first, and the words of the left side."
    let (&[low, high], behind) = behind.split_first_chunk()?;
    let (left, behind) = behind.split_at_checked(two_bytes(low, high))?;
    let left = Some(left);
    Some((Record { first, place, left }, behind))
}

fn two_bytes(low: u8, high: u8) -> usize {
    low as usize + 256 * high as usize
}

/// The record of a step backwards, whose left side has at most 65,535 words.
pub fn record_backwards(law: u8, place: usize, left: &[u8]) -> Vec<u8> {
    let (first, left) = (BACKWARDS + law, Some(left));
    Record { first, place, left }.bytes()
}
