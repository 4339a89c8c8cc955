//! The thirty-two laws, each a left and a right side, and where they fit.
//!
//! The sides are written in postfix order, like plans. The letters x, y, z stand for
//! any plan, a and b for a single action word, 0 included; c stands for the table entry
//! of a and b; δ is the word 0; ∂ is any of the eight signs, the same throughout a law.

use crate::plans::{
    operands, starts, CHOICE, COMMUNICATION_MERGE, ENCAPSULATION, LAST_ENCAPSULATION, LEFT_MERGE,
    MERGE, PRODUCT, THETA, UNLESS,
};
use crate::tables::{below, blocked, communication, DEAD_STOP};
use std::ops::Range;
use std::sync::OnceLock;

/// How many laws there are.
pub const LAWS: u8 = 32;
/// The first of the laws that the unfolding uses: "laws 5 to 32".
pub const FIRST_UNFOLDING_LAW: u8 = 5;

/// What a law asks besides its left side.
#[derive(Clone, Copy, Debug, PartialEq, Eq)]
pub enum Condition {
    /// Nothing.
    Always,
    /// "a not in the set".
    NotInSet,
    /// "a in it".
    InSet,
    /// "not a<b".
    NotBelow,
    /// "a<b".
    Below,
}

use Condition::{Always, Below, InSet, NotBelow, NotInSet};

/// "Laws, left to right": left side, right side and condition of laws 1 to 32.
pub const SIDES: [(&str, &str, Condition); LAWS as usize] = [
    ("xy+", "yx+", Always),         // 1 x+y → y+x
    ("xyz++", "xy+z+", Always),     // 2 x+(y+z) → (x+y)+z
    ("xy+z+", "xyz++", Always),     // 3 (x+y)+z → x+(y+z)
    ("xx+", "x", Always),           // 4 x+x → x, operands equal in their words
    ("xy+z·", "xz·yz·+", Always),   // 5 (x+y)z → xz+yz
    ("xy·z·", "xyz··", Always),     // 6 (xy)z → x(yz)
    ("xδ+", "x", Always),           // 7 x+δ → x
    ("δx+", "x", Always),           // 8 δ+x → x
    ("δx·", "δ", Always),           // 9 δx → δ
    ("ab|", "c", Always),           // 10 a|b → its table entry
    ("xy‖", "xy⌊yx⌊+xy|+", Always), // 11 x‖y → (x⌊y + y⌊x) + x|y
    ("ax⌊", "ax·", Always),         // 12 a⌊x → ax
    ("ax·y⌊", "axy‖·", Always),     // 13 ax⌊y → a(x‖y)
    ("xy+z⌊", "xz⌊yz⌊+", Always),   // 14 (x+y)⌊z → x⌊z + y⌊z
    ("ax·b|", "ab|x·", Always),     // 15 (ax)|b → (a|b)x
    ("abx·|", "ab|x·", Always),     // 16 a|(bx) → (a|b)x
    ("ax·by·|", "ab|xy‖·", Always), // 17 (ax)|(by) → (a|b)(x‖y)
    ("xy+z|", "xz|yz|+", Always),   // 18 (x+y)|z → x|z + y|z
    ("xyz+|", "xy|xz|+", Always),   // 19 x|(y+z) → x|y + x|z
    ("a∂", "a", NotInSet),          // 20 ∂(a) → a, a not in the set
    ("a∂", "δ", InSet),             // 21 ∂(a) → δ, a in it
    ("xy+∂", "x∂y∂+", Always),      // 22 ∂(x+y) → ∂(x)+∂(y)
    ("xy·∂", "x∂y∂·", Always),      // 23 ∂(xy) → ∂(x)∂(y)
    ("ab◁", "a", NotBelow),         // 24 a◁b → a, not a<b
    ("ab◁", "δ", Below),            // 25 a◁b → δ, a<b
    ("xyz·◁", "xy◁", Always),       // 26 x◁yz → x◁y
    ("xyz+◁", "xy◁z◁", Always),     // 27 x◁(y+z) → (x◁y)◁z
    ("xy·z◁", "xz◁y·", Always),     // 28 xy◁z → (x◁z)y
    ("xy+z◁", "xz◁yz◁+", Always),   // 29 (x+y)◁z → x◁z + y◁z
    ("aθ", "a", Always),            // 30 θ(a) → a
    ("xy·θ", "xθyθ·", Always),      // 31 θ(xy) → θ(x)θ(y)
    ("xy+θ", "xθy◁yθx◁+", Always),  // 32 θ(x+y) → θ(x)◁y + θ(y)◁x
];

/// One sign or letter of a side.
#[derive(Clone, Copy, Debug, PartialEq, Eq)]
enum Symbol {
    /// x, y or z, numbered 0 to 2.
    Plan(usize),
    /// a or b, numbered 0 and 1.
    Action(usize),
    /// c.
    TableEntry,
    /// ∂.
    Encapsulation,
    /// δ, or a sign with one word.
    Word(u8),
}

fn symbol(letter: char) -> Symbol {
    match letter {
        'x' => Symbol::Plan(0),
        'y' => Symbol::Plan(1),
        'z' => Symbol::Plan(2),
        'a' => Symbol::Action(0),
        'b' => Symbol::Action(1),
        'c' => Symbol::TableEntry,
        '∂' => Symbol::Encapsulation,
        'δ' => Symbol::Word(DEAD_STOP),
        '+' => Symbol::Word(CHOICE),
        '·' => Symbol::Word(PRODUCT),
        '‖' => Symbol::Word(MERGE),
        '⌊' => Symbol::Word(LEFT_MERGE),
        '|' => Symbol::Word(COMMUNICATION_MERGE),
        '◁' => Symbol::Word(UNLESS),
        'θ' => Symbol::Word(THETA),
        _ => unreachable!("no such letter in a law"),
    }
}

/// A law with its sides read.
struct Law {
    number: u8,
    left: Vec<Symbol>,
    right: Vec<Symbol>,
    condition: Condition,
}

/// All laws, law 1 first.
fn laws() -> &'static [Law] {
    static READ: OnceLock<Vec<Law>> = OnceLock::new();
    READ.get_or_init(|| (1..=LAWS).map(read_law).collect())
}

fn read_law(number: u8) -> Law {
    let (left, right, condition) = SIDES[number as usize - 1];
    Law {
        number,
        left: left.chars().map(symbol).collect(),
        right: right.chars().map(symbol).collect(),
        condition,
    }
}

/// The law of this number, if there is one.
fn law(number: u8) -> Option<&'static Law> {
    laws().iter().find(|law| law.number == number)
}

/// The laws whose left side has this word last, the lowest first.
fn laws_with_last(word: u8) -> &'static [&'static Law] {
    static SORTED: OnceLock<Vec<Vec<&'static Law>>> = OnceLock::new();
    let sorted = SORTED.get_or_init(|| {
        let with_last = |word| laws().iter().filter(move |law| law.has_last(word));
        (0..=255).map(|word| with_last(word).collect()).collect()
    });
    &sorted[word as usize]
}

impl Law {
    /// Whether the left side can have this word last.
    fn has_last(&self, word: u8) -> bool {
        match self.left.last() {
            Some(Symbol::Encapsulation) => is_encapsulation(word),
            Some(Symbol::Word(last)) => word == *last,
            _ => false,
        }
    }
}

/// What the letters of a left side stand for, where it fits.
#[derive(Default)]
struct Letters {
    plans: [Option<Range<usize>>; 3],
    actions: [u8; 2],
    encapsulation: u8,
}

/// Reads the left side backwards against the words that end at the place. Answers what
/// the letters stand for and where the subplan begins.
fn match_left(
    left: &[Symbol],
    plan: &[u8],
    starts: &[usize],
    place: usize,
) -> Option<(Letters, usize)> {
    let mut letters = Letters::default();
    let mut end = place + 1;
    for &symbol in left.iter().rev() {
        let last = end - 1;
        let word = plan[last];
        end = last;
        match symbol {
            Symbol::Word(wanted) if word == wanted => {}
            Symbol::Action(letter) if operands(word) == 0 => letters.actions[letter] = word,
            Symbol::Encapsulation if is_encapsulation(word) => letters.encapsulation = word,
            Symbol::Plan(letter) => {
                end = starts[last];
                if !letters.stands_for(letter, end..last + 1, plan) {
                    return None;
                }
            }
            _ => return None,
        }
    }
    Some((letters, end))
}

fn is_encapsulation(word: u8) -> bool {
    (ENCAPSULATION..=LAST_ENCAPSULATION).contains(&word)
}

impl Letters {
    /// Lets the letter stand for the words of the range. A letter that stands for a plan
    /// already must get one "equal in … words".
    fn stands_for(&mut self, letter: usize, range: Range<usize>, plan: &[u8]) -> bool {
        match &self.plans[letter] {
            Some(earlier) => plan[earlier.clone()] == plan[range],
            None => {
                self.plans[letter] = Some(range);
                true
            }
        }
    }

    /// Whether the condition holds of the actions and the set.
    fn meet(&self, tables: &[u8], condition: Condition) -> bool {
        let [a, b] = self.actions;
        match condition {
            Always => true,
            NotInSet => !blocked(tables, self.encapsulation - ENCAPSULATION, a),
            InSet => blocked(tables, self.encapsulation - ENCAPSULATION, a),
            NotBelow => !below(tables, a, b),
            Below => below(tables, a, b),
        }
    }

    /// Writes the right side, each letter by what it stands for.
    fn put_right(&self, tables: &[u8], plan: &[u8], right: &[Symbol], next: &mut Vec<u8>) {
        let [a, b] = self.actions;
        for &symbol in right {
            match symbol {
                Symbol::Plan(letter) => {
                    let range = self.plans[letter].clone().expect("the left side has it");
                    next.extend_from_slice(&plan[range]);
                }
                Symbol::Action(letter) => next.push(self.actions[letter]),
                Symbol::TableEntry => next.push(communication(tables, a, b)),
                Symbol::Encapsulation => next.push(self.encapsulation),
                Symbol::Word(word) => next.push(word),
            }
        }
    }
}

impl Law {
    /// What the letters stand for and where the subplan begins, if the law fits at the
    /// place of an accepted plan; `starts` are those of the plan.
    fn fit(
        &self,
        tables: &[u8],
        plan: &[u8],
        starts: &[usize],
        place: usize,
    ) -> Option<(Letters, usize)> {
        let (letters, start) = match_left(&self.left, plan, starts, place)?;
        letters
            .meet(tables, self.condition)
            .then_some((letters, start))
    }
}

/// "a step is made exactly when that law's left side, as published, fits there …; it
/// gives the plan with the right side put in." Tables and plan are accepted ones.
pub fn apply(tables: &[u8], plan: &[u8], number: u8, place: usize) -> Option<Vec<u8>> {
    let law = law(number)?;
    if place >= plan.len() {
        return None;
    }
    let (letters, start) = law.fit(tables, plan, &starts(&plan[..=place]), place)?;
    let mut next = plan[..start].to_vec();
    letters.put_right(tables, plan, &law.right, &mut next);
    next.extend_from_slice(&plan[place + 1..]);
    Some(next)
}

/// "Each step takes the least place at which one of laws 5 to 32 fits, and the lowest
/// such law." Answers the law and the place; tables and plan are accepted ones.
pub fn next_step(tables: &[u8], plan: &[u8]) -> Option<(u8, usize)> {
    let starts = starts(plan);
    (0..plan.len()).find_map(|place| {
        let lowest = laws_fitting(tables, plan, &starts, FIRST_UNFOLDING_LAW, place).next();
        lowest.map(|number| (number, place))
    })
}

/// The laws that fit at a place within the plan, the lowest first.
pub fn laws_at(tables: &[u8], plan: &[u8], place: usize) -> Vec<u8> {
    laws_fitting(tables, plan, &starts(plan), 1, place).collect()
}

/// The same from some law on, with the starts known.
fn laws_fitting<'t>(
    tables: &'t [u8],
    plan: &'t [u8],
    starts: &'t [usize],
    first: u8,
    place: usize,
) -> impl Iterator<Item = u8> + 't {
    laws_with_last(plan[place])
        .iter()
        .filter(move |law| law.number >= first)
        .filter(move |law| law.fit(tables, plan, starts, place).is_some())
        .map(|law| law.number)
}

#[cfg(test)]
mod tests {
    use super::*;
    use crate::tables::trial_tables;

    /// The laws as `docs/NUMBERS.md` prints them, without their conditions in words, and with c
    /// for the table entry of law 10.
    const PRINTED: [&str; 32] = [
        "x+y → y+x",
        "x+(y+z) → (x+y)+z",
        "(x+y)+z → x+(y+z)",
        "x+x → x",
        "(x+y)z → xz+yz",
        "(xy)z → x(yz)",
        "x+δ → x",
        "δ+x → x",
        "δx → δ",
        "a|b → c",
        "x‖y → (x⌊y + y⌊x) + x|y",
        "a⌊x → ax",
        "ax⌊y → a(x‖y)",
        "(x+y)⌊z → x⌊z + y⌊z",
        "(ax)|b → (a|b)x",
        "a|(bx) → (a|b)x",
        "(ax)|(by) → (a|b)(x‖y)",
        "(x+y)|z → x|z + y|z",
        "x|(y+z) → x|y + x|z",
        "∂(a) → a",
        "∂(a) → δ",
        "∂(x+y) → ∂(x)+∂(y)",
        "∂(xy) → ∂(x)∂(y)",
        "a◁b → a",
        "a◁b → δ",
        "x◁yz → x◁y",
        "x◁(y+z) → (x◁y)◁z",
        "xy◁z → (x◁z)y",
        "(x+y)◁z → x◁z + y◁z",
        "θ(a) → a",
        "θ(xy) → θ(x)θ(y)",
        "θ(x+y) → θ(x)◁y + θ(y)◁x",
    ];

    /// Reads the printed form into postfix order: "Product binds closest."
    struct Reader<'t> {
        rest: std::iter::Peekable<std::str::Chars<'t>>,
    }

    impl Reader<'_> {
        fn sum(&mut self) -> String {
            let mut read = self.merge();
            while self.rest.next_if_eq(&'+').is_some() {
                read = read + &self.merge() + "+";
            }
            read
        }

        fn merge(&mut self) -> String {
            let mut read = self.product();
            while let Some(sign) = self.rest.next_if(|&c| "‖⌊|◁".contains(c)) {
                read = read + &self.product() + &sign.to_string();
            }
            read
        }

        fn product(&mut self) -> String {
            let mut read = self.unit();
            while self.rest.peek().is_some_and(|&c| "xyzabcδ(∂θ".contains(c)) {
                read = read + &self.unit() + "·";
            }
            read
        }

        fn unit(&mut self) -> String {
            match self.rest.next().unwrap() {
                '(' => {
                    let inner = self.sum();
                    assert_eq!(self.rest.next(), Some(')'));
                    inner
                }
                sign @ ('∂' | 'θ') => self.unit() + &sign.to_string(),
                letter => letter.to_string(),
            }
        }
    }

    fn postfix(printed: &str) -> String {
        let close: String = printed.chars().filter(|c| !c.is_whitespace()).collect();
        let mut reader = Reader {
            rest: close.chars().peekable(),
        };
        let read = reader.sum();
        assert_eq!(reader.rest.next(), None);
        read
    }

    #[test]
    fn sides_are_the_printed_ones() {
        for (index, printed) in PRINTED.iter().enumerate() {
            let (left, right) = printed.split_once('→').unwrap();
            let (kept_left, kept_right, _) = SIDES[index];
            assert_eq!(kept_left, postfix(left), "law {}", index + 1);
            assert_eq!(kept_right, postfix(right), "law {}", index + 1);
        }
    }

    #[test]
    fn lowest_law_at_one_place() {
        let tables = trial_tables();
        assert_eq!(laws_at(&tables, &[0, 0, 64], 2), [1, 4, 7, 8]);
        assert_eq!(laws_at(&tables, &[1, 2, 65, 3, 4, 65, 69], 6), [26, 28]);
        assert_eq!(next_step(&tables, &[1, 2, 65, 3, 4, 65, 69]), Some((26, 6)));
    }

    #[test]
    fn laws_that_do_not_fit() {
        let tables = trial_tables();
        let plan = [1, 2, 64];
        for (law, place) in [
            (0, 2),
            (33, 2),
            (255, 2),
            (1, 3),
            (1, 65_535),
            (1, 1),
            (4, 2),
        ] {
            assert_eq!(apply(&tables, &plan, law, place), None, "{law} {place}");
        }
        assert_eq!(apply(&tables, &[1, 80], 20, 1), None);
        assert_eq!(apply(&tables, &[1, 81], 20, 1), Some(vec![1]));
        assert_eq!(apply(&tables, &[1, 80], 21, 1), Some(vec![0]));
        assert_eq!(apply(&tables, &[0, 1, 69], 25, 2), Some(vec![0]));
        assert_eq!(apply(&tables, &[1, 2, 65, 3, 68], 10, 4), None);
    }
}
