//! The laws on words: whether one fits at the last word read, and its right side.

use super::words::{Piece, Span, Words};
use reference::plans::{
    CHOICE, COMMUNICATION_MERGE, ENCAPSULATION, LAST_ENCAPSULATION, LEFT_MERGE, MERGE, PRODUCT,
    THETA, UNLESS,
};
use reference::tables::{below, blocked, communication, DEAD_STOP};

/// What the letters of a law stand for.
#[derive(Clone, Copy, Default)]
pub struct Letters {
    x: Span,
    y: Span,
    z: Span,
    a: u8,
    b: u8,
    sign: u8,
}

/// A letter or sign of a right side.
#[derive(Clone, Copy)]
enum Symbol {
    X,
    Y,
    Z,
    A,
    B,
    /// The table entry of a and b.
    Entry,
    /// The encapsulation of the left side.
    Sign,
    Word(u8),
}

use Symbol::{Entry, Sign, Word, A, B, X, Y, Z};

const STOP: Symbol = Word(DEAD_STOP);
const ALT: Symbol = Word(CHOICE);
const SEQ: Symbol = Word(PRODUCT);
const MRG: Symbol = Word(MERGE);
const LMG: Symbol = Word(LEFT_MERGE);
const COM: Symbol = Word(COMMUNICATION_MERGE);
const UNL: Symbol = Word(UNLESS);
const PRI: Symbol = Word(THETA);

/// The right sides of laws 1 to 32, in postfix order.
const RIGHT: [&[Symbol]; 32] = [
    &[Y, X, ALT],
    &[X, Y, ALT, Z, ALT],
    &[X, Y, Z, ALT, ALT],
    &[X],
    &[X, Z, SEQ, Y, Z, SEQ, ALT],
    &[X, Y, Z, SEQ, SEQ],
    &[X],
    &[X],
    &[STOP],
    &[Entry],
    &[X, Y, LMG, Y, X, LMG, ALT, X, Y, COM, ALT],
    &[A, X, SEQ],
    &[A, X, Y, MRG, SEQ],
    &[X, Z, LMG, Y, Z, LMG, ALT],
    &[A, B, COM, X, SEQ],
    &[A, B, COM, X, SEQ],
    &[A, B, COM, X, Y, MRG, SEQ],
    &[X, Z, COM, Y, Z, COM, ALT],
    &[X, Y, COM, X, Z, COM, ALT],
    &[A],
    &[STOP],
    &[X, Sign, Y, Sign, ALT],
    &[X, Sign, Y, Sign, SEQ],
    &[A],
    &[STOP],
    &[X, Y, UNL],
    &[X, Y, UNL, Z, UNL],
    &[X, Z, UNL, Y, SEQ],
    &[X, Z, UNL, Y, Z, UNL, ALT],
    &[A],
    &[X, PRI, Y, PRI, SEQ],
    &[X, PRI, Y, UNL, Y, PRI, X, UNL, ALT],
];

/// What the letters of a law stand for, if it fits at the last word read.
// Put into both of its users: see `put_starts`.
#[inline(always)]
pub fn fit(law: u8, tables: &[u8], words: Words) -> Option<Letters> {
    let last = words.last();
    let sign = words.word(last);
    let (p, q) = words.operands(last);
    let matching = Matching {
        tables,
        words,
        sign,
        p,
        q,
    };
    match (law, sign) {
        (1..=4 | 7..=8, CHOICE)
        | (5..=6 | 9, PRODUCT)
        | (11, MERGE)
        | (12..=14, LEFT_MERGE)
        | (10 | 15..=19, COMMUNICATION_MERGE)
        | (24..=29, UNLESS) => matching.two(law),
        (20..=23, ENCAPSULATION..=LAST_ENCAPSULATION) | (30..=32, THETA) => matching.one(law),
        _ => None,
    }
}

/// What a left side is matched against: a sign with its operands, the same one twice for a sign
/// of one.
struct Matching<'t> {
    tables: &'t [u8],
    words: Words<'t>,
    sign: u8,
    p: Span,
    q: Span,
}

impl Matching<'_> {
    /// The operands of a term whose sign is this one.
    fn under(&self, sign: u8, term: Span) -> Option<(Span, Span)> {
        (self.words.word(term) == sign).then(|| self.words.operands(term))
    }

    /// The action that a term is.
    fn action(&self, term: Span) -> Option<u8> {
        let word = self.words.word(term);
        (word < 32).then_some(word)
    }

    /// The first action and the rest of a term a·x.
    fn first(&self, term: Span) -> Option<(u8, Span)> {
        let (a, x) = self.under(PRODUCT, term)?;
        Some((self.action(a)?, x))
    }

    fn is_stop(&self, term: Span) -> bool {
        self.words.word(term) == DEAD_STOP
    }

    /// A law whose left side is a sign with the operands p and q.
    fn two(&self, law: u8) -> Option<Letters> {
        let (none, p, q) = (Letters::default(), self.p, self.q);
        let plans = |x, y, z| Letters { x, y, z, ..none };
        let below = |found: &Letters| below(self.tables, found.a, found.b);
        match law {
            1 | 11 => Some(plans(p, q, none.z)),
            2 | 19 | 27 => self.under(CHOICE, q).map(|(y, z)| plans(p, y, z)),
            3 | 5 | 14 | 18 | 29 => self.under(CHOICE, p).map(|(x, y)| plans(x, y, q)),
            4 => self.words.same(p, q).then_some(Letters { x: p, ..none }),
            6 | 28 => self.under(PRODUCT, p).map(|(x, y)| plans(x, y, q)),
            7 => self.is_stop(q).then_some(Letters { x: p, ..none }),
            8 | 9 => self.is_stop(p).then_some(Letters { x: q, ..none }),
            10 => self.actions(),
            12 => self.action(p).map(|a| Letters { a, x: q, ..none }),
            13 => self.first(p).map(|(a, x)| Letters { a, x, y: q, ..none }),
            15 => {
                let ((a, x), b) = (self.first(p)?, self.action(q)?);
                Some(Letters { a, b, x, ..none })
            }
            16 => {
                let (a, (b, x)) = (self.action(p)?, self.first(q)?);
                Some(Letters { a, b, x, ..none })
            }
            17 => {
                let ((a, x), (b, y)) = (self.first(p)?, self.first(q)?);
                Some(Letters { a, b, x, y, ..none })
            }
            24 => self.actions().filter(|found| !below(found)),
            25 => self.actions().filter(below),
            26 => self.under(PRODUCT, q).map(|(y, z)| plans(p, y, z)),
            _ => None,
        }
    }

    /// Two actions a and b.
    fn actions(&self) -> Option<Letters> {
        let (a, b) = (self.action(self.p)?, self.action(self.q)?);
        let none = Letters::default();
        Some(Letters { a, b, ..none })
    }

    /// A law whose left side is a sign with the operand p.
    fn one(&self, law: u8) -> Option<Letters> {
        let (sign, p) = (self.sign, self.p);
        let none = Letters {
            sign,
            ..Letters::default()
        };
        let plans = |(x, y)| Letters { x, y, ..none };
        let action = || self.action(p).map(|a| Letters { a, ..none });
        let in_set = |found: &Letters| blocked(self.tables, sign - ENCAPSULATION, found.a);
        match law {
            20 => action().filter(|found| !in_set(found)),
            21 => action().filter(in_set),
            22 | 32 => self.under(CHOICE, p).map(plans),
            23 | 31 => self.under(PRODUCT, p).map(plans),
            30 => action(),
            _ => None,
        }
    }
}

/// The right side of a law, its letters replaced by what they stand for.
pub fn right(
    law: u8,
    tables: &[u8],
    letters: Letters,
) -> impl DoubleEndedIterator<Item = Piece> + Clone {
    let together = communication(tables, letters.a, letters.b);
    let piece = move |&symbol: &Symbol| match symbol {
        X => Piece::Term(letters.x),
        Y => Piece::Term(letters.y),
        Z => Piece::Term(letters.z),
        A => Piece::Word(letters.a),
        B => Piece::Word(letters.b),
        Entry => Piece::Word(together),
        Sign => Piece::Word(letters.sign),
        Word(word) => Piece::Word(word),
    };
    RIGHT[law as usize - 1].iter().map(piece)
}
