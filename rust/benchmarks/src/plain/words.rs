//! Words of a plan that are read, with the start of the subplan that ends at each.

use reference::plans::{operands, LONGEST_PLAN};

/// Where a subplan stands.
#[derive(Clone, Copy, Default)]
pub struct Span {
    pub from: usize,
    pub to: usize,
}

/// A piece of a right side.
pub enum Piece {
    /// The words of a subplan.
    Term(Span),
    /// A word.
    Word(u8),
}

impl Piece {
    /// How many words a piece has.
    pub fn size(&self) -> usize {
        match self {
            Piece::Term(span) => span.to - span.from,
            Piece::Word(_) => 1,
        }
    }
}

/// Puts down where the subplan that ends at each word starts, from this word on; those before it
/// have theirs.
// Put into both of its users, as the compiler does where there is one: the gap's moves take most of
// a check where places are far apart.
#[inline(always)]
pub fn put_starts(words: &[u8], starts: &mut [u16; LONGEST_PLAN], from: usize) {
    for read in from..words.len() {
        starts[read] = match operands(words[read]) {
            0 => read as u16,
            1 => starts[read - 1],
            _ => starts[starts[read - 1] as usize - 1],
        };
    }
}

/// The words read, and the starts.
#[derive(Clone, Copy)]
pub struct Words<'w> {
    pub words: &'w [u8],
    pub starts: &'w [u16],
}

impl Words<'_> {
    /// The subplan that ends at the last word read.
    pub fn last(self) -> Span {
        let to = self.words.len();
        let from = self.starts[to - 1].into();
        Span { from, to }
    }

    /// The last word of a subplan: its action or its sign.
    pub fn word(self, term: Span) -> u8 {
        self.words[term.to - 1]
    }

    /// The operands of a subplan whose sign has two; of another, what is before its last word,
    /// twice.
    pub fn operands(self, term: Span) -> (Span, Span) {
        let to = term.to - 1;
        if operands(self.word(term)) < 2 {
            let operand = Span { to, ..term };
            return (operand, operand);
        }
        let between = usize::from(self.starts[to - 1]);
        let first = Span {
            to: between,
            ..term
        };
        let second = Span { from: between, to };
        (first, second)
    }

    /// Whether two subplans have the same words.
    pub fn same(self, x: Span, y: Span) -> bool {
        self.words[x.from..x.to] == self.words[y.from..y.to]
    }
}
