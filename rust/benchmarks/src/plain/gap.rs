//! A plan under work as a gap buffer, in which the gap moves to a place at the cost of the words
//! between.

use super::areas::{leave_in, Cut};
use super::words::{put_starts, Piece, Span, Words};
use reference::plans::LONGEST_PLAN;

/// A plan with a gap at the last word read, and what the last step changed.
pub struct Gap {
    /// The words read, in front.
    left: [u8; LONGEST_PLAN],
    /// For each word read, where the subplan that ends there starts.
    starts: [u16; LONGEST_PLAN],
    /// The words still to read, at the end.
    right: [u8; LONGEST_PLAN],
    /// The words that the last step took away, in front.
    old: [u8; LONGEST_PLAN],
    /// How many words are read.
    read: usize,
    /// Where the words still to read begin.
    rest: usize,
    /// The steps made.
    steps: usize,
    /// The last step.
    cut: Cut,
}

impl Gap {
    /// An accepted plan with no word read.
    pub fn load(plan: &[u8]) -> Gap {
        let rest = LONGEST_PLAN - plan.len();
        let mut right = [0; LONGEST_PLAN];
        right[rest..].copy_from_slice(plan);
        Gap {
            left: [0; LONGEST_PLAN],
            starts: [0; LONGEST_PLAN],
            right,
            old: [0; LONGEST_PLAN],
            read: 0,
            rest,
            steps: 0,
            cut: Cut::default(),
        }
    }

    /// How many words the plan has.
    pub fn size(&self) -> usize {
        self.read + (LONGEST_PLAN - self.rest)
    }

    /// How many steps are made.
    pub fn steps(&self) -> usize {
        self.steps
    }

    /// The words read.
    pub fn words(&self) -> Words<'_> {
        Words {
            words: &self.left[..self.read],
            starts: &self.starts[..self.read],
        }
    }

    /// The words of the subplan at the last word read.
    pub fn subplan(&self) -> &[u8] {
        let Span { from, to } = self.words().last();
        &self.left[from..to]
    }

    /// Reads so many words more.
    fn forward(&mut self, count: usize) {
        let (end, rest) = (self.read + count, self.rest + count);
        self.left[self.read..end].copy_from_slice(&self.right[self.rest..rest]);
        put_starts(&self.left[..end], &mut self.starts, self.read);
        (self.read, self.rest) = (end, rest);
    }

    /// Moves the last words read back, so many of them.
    fn back(&mut self, count: usize) {
        let (read, rest) = (self.read - count, self.rest - count);
        self.right[rest..self.rest].copy_from_slice(&self.left[read..self.read]);
        (self.read, self.rest) = (read, rest);
    }

    /// Moves until the word at a place of the plan is the last one read.
    pub fn seek(&mut self, place: usize) {
        match place + 1 {
            end if end > self.read => self.forward(end - self.read),
            end => self.back(self.read - end),
        }
    }

    /// Puts a right side in place of the subplan at the last word read, unless the plan would
    /// have more words than there is room for.
    pub fn replace(
        &mut self,
        right: impl DoubleEndedIterator<Item = Piece> + Clone,
        room: usize,
    ) -> bool {
        let put = right.clone().map(|piece| piece.size()).sum();
        if !self.take(put, room) {
            return false;
        }
        for piece in right.rev() {
            let end = self.rest;
            self.rest -= piece.size();
            match piece {
                Piece::Word(word) => self.right[self.rest] = word,
                Piece::Term(Span { from, to }) => {
                    self.right[self.rest..end].copy_from_slice(&self.left[from..to]);
                }
            }
        }
        true
    }

    /// The same with words that are not from this plan.
    pub fn replace_by(&mut self, words: &[u8], room: usize) -> bool {
        if !self.take(words.len(), room) {
            return false;
        }
        let end = self.rest;
        self.rest -= words.len();
        self.right[self.rest..end].copy_from_slice(words);
        true
    }

    /// Takes the subplan at the last word read away for so many words that are put in, unless the
    /// plan would have more than there is room for.
    fn take(&mut self, put: usize, room: usize) -> bool {
        let Span { from: at, to } = self.words().last();
        let taken = to - at;
        if self.size() - taken + put > room {
            return false;
        }
        self.old[..taken].copy_from_slice(&self.left[at..to]);
        self.read = at;
        self.cut = Cut { at, taken, put };
        self.steps += 1;
        true
    }

    /// The plan in two parts.
    fn parts(&self) -> [&[u8]; 2] {
        [&self.left[..self.read], &self.right[self.rest..]]
    }

    /// Whether the plan has exactly these words.
    pub fn holds(&self, plan: &[u8]) -> bool {
        let [left, right] = self.parts();
        plan.len() == self.size() && plan.starts_with(left) && plan.ends_with(right)
    }

    /// Leaves the plan, and the plan one step before, in the areas.
    pub fn store(&self, areas: [&mut [u8]; 2]) {
        leave_in(areas, self.steps, self.parts(), self.cut, &self.old);
    }
}
