//! The left side that a step from right to left carries, read as the words of a plan are.

use super::word_laws::{fit, right};
use super::words::{put_starts, Piece, Words};
use reference::plans::LONGEST_PLAN;

/// Room to read left sides in.
pub struct Carried {
    /// For each word, where the subplan that ends there starts.
    starts: [u16; LONGEST_PLAN],
}

impl Carried {
    /// Nothing read yet.
    pub fn new() -> Carried {
        Carried {
            starts: [0; LONGEST_PLAN],
        }
    }

    /// Whether a law, applied at the last word of a left side, gives exactly these words.
    pub fn gives(&mut self, law: u8, tables: &[u8], left: &[u8], wanted: &[u8]) -> bool {
        put_starts(left, &mut self.starts, 0);
        let words = Words {
            words: left,
            starts: &self.starts[..left.len()],
        };
        let Some(letters) = fit(law, tables, words) else {
            return false;
        };
        let mut rest = wanted;
        for piece in right(law, tables, letters) {
            let behind = match piece {
                Piece::Word(word) => rest.strip_prefix(&[word]),
                Piece::Term(span) => rest.strip_prefix(&left[span.from..span.to]),
            };
            match behind {
                Some(behind) => rest = behind,
                None => return false,
            }
        }
        rest.is_empty()
    }
}
