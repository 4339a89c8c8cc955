//! Random texts: derived from the grammar together with their plans, typed from plans, deep ones,
//! long ones and damaged ones, and whole cases of reading a text.

use super::plans::{action, basic_plan, plan, plan_with_left_side, small_plan};
use super::tables::{damaged_tables, lawful_tables, lawful_tables_over};
use super::Random;
use crate::plans::{CHOICE, ENCAPSULATION, LONGEST_PLAN, MERGE, PRODUCT, THETA};
use crate::refusals::Refusal;
use crate::tables::{trial_tables, MOST_ACTIONS};
use crate::texts::{read_text, typed, DEEPEST};

/// What is handed to the reader of texts.
#[derive(Clone, Debug)]
pub struct TextCase {
    /// The tables.
    pub tables: Vec<u8>,
    /// The text.
    pub text: Vec<u8>,
    /// The plan area, with the bytes it has before.
    pub plan: Vec<u8>,
}

/// What the reader answers, and the lent bytes afterwards.
#[derive(Clone, Debug, PartialEq, Eq)]
pub struct TextRead {
    /// The plan's length, or the refusal.
    pub answer: Result<usize, Refusal>,
    /// The plan area.
    pub plan: Vec<u8>,
}

impl TextCase {
    /// Reads, leaving the case as it is.
    pub fn run(&self) -> TextRead {
        let mut plan = self.plan.clone();
        let answer = read_text(&self.tables, &self.text, &mut plan);
        TextRead { answer, plan }
    }
}

/// A text and the words of the plan that it tells, or told before it was damaged. A text that
/// never told one has a few zeros there.
#[derive(Clone, Debug, PartialEq, Eq)]
pub struct Told {
    /// The text.
    pub text: Vec<u8>,
    /// The words.
    pub words: Vec<u8>,
}

impl Told {
    fn action(action: u8) -> Told {
        Told {
            text: action.to_string().into_bytes(),
            words: vec![action],
        }
    }

    fn plan(plan: Vec<u8>) -> Told {
        Told {
            text: typed(&plan),
            words: plan,
        }
    }

    /// Another operand behind, with the signs between them.
    fn join(&mut self, signs: &str, other: &Told, word: u8) {
        self.text.extend(signs.bytes());
        self.text.extend(&other.text);
        self.words.extend(&other.words);
        self.words.push(word);
    }

    /// A bracket around, after these letters.
    fn bracket(&mut self, letters: &str, word: Option<u8>) {
        self.text.splice(0..0, format!("{letters}(").bytes());
        self.text.push(b')');
        self.words.extend(word);
    }
}

/// Lengths of areas worth trying whatever the plan.
const AREA_EDGES: [usize; 8] = [0, 1, 2, 3, 10, 8192, 16_384, 16_385];

/// A case for the reader of texts: mostly with accepted tables, a text at an edge of the grammar
/// or of its limits, and an area close to what the plan needs.
pub fn text_case(random: &mut Random) -> TextCase {
    let tables = match random.below(10) {
        0 => damaged_tables(random),
        1 | 2 => trial_tables(),
        3 => lawful_tables(random),
        _ => {
            let n = random.pick(&[1, 2, 3, 4, 4, 5, 8, 9, 9, 10, 11, 12, 20, 31]);
            lawful_tables_over(random, n)
        }
    };
    let n = tables.first().copied().unwrap_or(1).clamp(1, MOST_ACTIONS);
    let told = any_text(random, n);
    text_case_of(random, tables, told)
}

/// A case for the reader of this text with these tables, accepted or not.
pub fn text_case_of(random: &mut Random, tables: Vec<u8>, told: Told) -> TextCase {
    let words = told.words.len();
    let area = match random.below(12) {
        0 => random.pick(&AREA_EDGES),
        1 => words.saturating_sub(1),
        2 => words + 1,
        3..=6 => words,
        _ => words + random.below(40),
    };
    TextCase {
        tables,
        text: told.text,
        plan: random.lent(area),
    }
}

/// A text over n actions of any kind; about one in 200 is a long one.
pub fn any_text(random: &mut Random, n: u8) -> Told {
    if random.once_in(200) {
        return match random.below(5) {
            0 | 1 => damaged_long_text(random, n),
            _ => long_text(random, n),
        };
    }
    match random.below(20) {
        0..=3 => derived_text(random, n),
        4..=6 => typed_text(random, n),
        7..=13 => damaged_text(random, n),
        14 | 15 => deep_text(random, n),
        16 => damaged_deep_text(random, n),
        17 => any_characters(random),
        _ => edge_text(random),
    }
}

/// A text derived from the grammar, over n actions, with its plan.
pub fn derived_text(random: &mut Random, n: u8) -> Told {
    let levels = random.between(0, 4);
    sum(random, n, levels)
}

/// "Products join by `+`": a sum with brackets on at most so many levels.
fn sum(random: &mut Random, n: u8, levels: usize) -> Told {
    let mut told = product(random, n, levels);
    while random.once_in(3) {
        told.join("+", &product(random, n, levels), CHOICE);
    }
    told
}

/// "units by `.`".
fn product(random: &mut Random, n: u8, levels: usize) -> Told {
    let mut told = unit(random, n, levels);
    while random.once_in(3) {
        told.join(".", &unit(random, n, levels), PRODUCT);
    }
    told
}

/// "A unit is an action …, `(s)`, `T(s)`, `H0(s)` to `H7(s)`, or `(s o s)`".
fn unit(random: &mut Random, n: u8, levels: usize) -> Told {
    if levels == 0 || random.once_in(2) {
        return Told::action(action(random, n));
    }
    let mut told = sum(random, n, levels - 1);
    match random.below(6) {
        0 => told.bracket("", None),
        1 => told.bracket("T", Some(THETA)),
        2 => set_around(random, &mut told),
        _ => {
            let right = sum(random, n, levels - 1);
            signs_around(random, &mut told, &right);
        }
    }
    told
}

/// `H0(s)` to `H7(s)`.
fn set_around(random: &mut Random, told: &mut Told) {
    let set = random.below(8) as u8;
    told.bracket(&format!("H{set}"), Some(ENCAPSULATION + set));
}

/// `(s o s)`, with the other sum on the right.
fn signs_around(random: &mut Random, told: &mut Told, right: &Told) {
    let sign = random.below(4);
    let signs = [" # ", " [ ", " | ", " < "][sign];
    told.join(signs, right, MERGE + sign as u8);
    told.bracket("", None);
}

/// The typed text of a plan that is not a long one.
pub fn typed_text(random: &mut Random, n: u8) -> Told {
    let most = random.pick(&[3, 9, 40, 300]);
    Told::plan(match random.below(4) {
        0 => plan_with_left_side(random, n),
        1 => basic_plan(random, n, 5),
        _ => small_plan(random, n, most),
    })
}

/// A text whose deepest bracket is close to the deepest that is allowed.
pub fn deep_text(random: &mut Random, n: u8) -> Told {
    let mut told = deep_unit(random, n);
    if random.once_in(3) {
        let other = deep_unit(random, n);
        match random.below(3) {
            0 => told.join("+", &other, CHOICE),
            1 => told.join(".", &other, PRODUCT),
            _ => signs_around(random, &mut told, &other),
        }
    }
    told
}

/// A deep text with damage, mostly at its first bracket that goes as deep as is allowed.
fn damaged_deep_text(random: &mut Random, n: u8) -> Told {
    let mut told = deep_text(random, n);
    let deep = deep_bracket(&told.text);
    match random.below(6) {
        0 => damage(random, n, &mut told.text),
        1 | 2 => {
            let piece = random.pick(&["1(", "1)(", "T", "T1(", "H8(", "H0", "1+(", "1.T(", "("]);
            told.text.splice(deep + 1..deep + 1, piece.bytes());
        }
        _ => {
            let at = deep + random.below(6);
            damage_at(random, n, &mut told.text, at);
        }
    }
    told
}

/// A unit that goes 197 to 203 deep, by one kind of bracket or by all of them.
fn deep_unit(random: &mut Random, n: u8) -> Told {
    let depth = random.between(DEEPEST - 3, DEEPEST + 3);
    let one_kind = random.below(5);
    let mixed = !random.once_in(3);
    let mut told = Told::action(action(random, n));
    for _ in 0..depth {
        let mut other = match random.below(4) {
            0 => sum(random, n, 1),
            _ => Told::action(action(random, n)),
        };
        if random.once_in(8) {
            told.join(".", &unit(random, n, 1), PRODUCT);
        }
        if random.once_in(8) {
            told.join("+", &product(random, n, 1), CHOICE);
        }
        match if mixed { random.below(5) } else { one_kind } {
            0 => told.bracket("", None),
            1 => told.bracket("T", Some(THETA)),
            2 => set_around(random, &mut told),
            3 => signs_around(random, &mut told, &other),
            _ => {
                signs_around(random, &mut other, &told);
                told = other;
            }
        }
    }
    told
}

/// The place of the first bracket that goes as deep as is allowed, or, where none does, as deep as
/// any.
fn deep_bracket(text: &[u8]) -> usize {
    let (mut depth, mut deepest, mut place) = (0, 0, 0);
    for (index, character) in text.iter().enumerate() {
        match character {
            b'(' => depth += 1,
            b')' => depth -= 1,
            _ => {}
        }
        if depth > deepest && depth <= DEEPEST {
            (deepest, place) = (depth, index);
        }
    }
    place
}

/// A text whose plan has about as many words as a plan may have.
pub fn long_text(random: &mut Random, n: u8) -> Told {
    let size = random.pick(&[
        LONGEST_PLAN - 1,
        LONGEST_PLAN,
        LONGEST_PLAN,
        LONGEST_PLAN,
        LONGEST_PLAN + 1,
        LONGEST_PLAN + 1,
        20_000,
    ]);
    match random.below(6) {
        0 => Told::plan(plan(random, n, size)),
        _ => long_chain(random, n, size),
    }
}

/// A long text with damage, mostly at its end.
fn damaged_long_text(random: &mut Random, n: u8) -> Told {
    let mut told = long_text(random, n);
    let last = told.text.len();
    match random.below(4) {
        0 => damage(random, n, &mut told.text),
        1 => told.text.push(b'+'),
        _ => {
            let at = last - random.below(8).min(last);
            damage_at(random, n, &mut told.text, at);
        }
    }
    told
}

/// A long sum or a long product of exactly so many words.
fn long_chain(random: &mut Random, n: u8, size: usize) -> Told {
    let (sign, word) = random.pick(&[("+", CHOICE), (".", PRODUCT)]);
    let levels = random.below(4);
    let mut told = Told::action(action(random, n));
    while told.words.len() + 1 < size {
        let mut next = unit(random, n, levels);
        if told.words.len() + next.words.len() + 1 > size {
            next = Told::action(action(random, n));
        }
        told.join(sign, &next, word);
    }
    if told.words.len() < size {
        told.bracket("T", Some(THETA));
    }
    told
}

/// A text with damage; by chance, it may still be read.
pub fn damaged_text(random: &mut Random, n: u8) -> Told {
    let mut told = match random.below(3) {
        0 => typed_text(random, n),
        _ => derived_text(random, n),
    };
    damage(random, n, &mut told.text);
    while random.once_in(4) {
        damage(random, n, &mut told.text);
    }
    told
}

fn damage(random: &mut Random, n: u8, text: &mut Vec<u8>) {
    let at = random.below(text.len() + 1);
    damage_at(random, n, text, at);
}

/// The characters of texts, and some that are close to them.
const CHARACTERS: &[u8] = b"0123456789+.()TH #[|<((T()) +.th]>,-\n\t\0";
/// Pieces of texts, most of them wrong almost everywhere.
const PIECES: [&str; 20] = [
    "T", "H", "H0", "T(", "(", "H7(", "H8(", "H9", "H10(", "1(", "()", ")(", " # ", " + ", " #",
    "# ", "++", "..", "T1", "·",
];

/// Damage at or close to this place.
fn damage_at(random: &mut Random, n: u8, text: &mut Vec<u8>, at: usize) {
    let at = at.min(text.len());
    match random.below(14) {
        0 if at < text.len() => drop(text.remove(at)),
        1 if at < text.len() => text.insert(at, text[at]),
        2 if at + 1 < text.len() => text.swap(at, at + 1),
        3 if at < text.len() => text[at] = random.pick(CHARACTERS),
        4 => text.insert(at, random.pick(CHARACTERS)),
        5 => text.insert(at, random.byte()),
        6 => text.insert(at, b' '),
        7 => text.truncate(at),
        8 => drop(text.drain(..at)),
        9 => put_number(text, at, |number| format!("0{number}")),
        10 | 11 => {
            let odd = odd_number(random, n);
            put_number(text, at, |_| odd);
        }
        12 => {
            let end = random.pick(&["\n", "\r\n", " ", ")", "+", ".", "\0", "+T", "1(1)"]);
            text.extend(end.bytes());
        }
        _ => {
            let piece = random.pick(&PIECES);
            text.splice(at..at, piece.bytes());
        }
    }
}

/// Puts another number for the first one from this place on, or for nothing at the end.
fn put_number(text: &mut Vec<u8>, at: usize, other: impl FnOnce(&str) -> String) {
    let is_digit = |character: &&u8| character.is_ascii_digit();
    let first = at + text[at..].iter().take_while(|c| !is_digit(c)).count();
    let last = first + text[first..].iter().take_while(is_digit).count();
    let number = String::from_utf8_lossy(&text[first..last]).into_owned();
    text.splice(first..last, other(&number).into_bytes());
}

/// Numbers that are 1 again if they are cut to 8, 16, 32, 64 or 128 bits.
const WRAPPING: [&str; 5] = [
    "257",
    "65537",
    "4294967297",
    "18446744073709551617",
    "340282366920938463463374607431768211457",
];

/// A number close to n, or far above.
fn odd_number(random: &mut Random, n: u8) -> String {
    match random.below(8) {
        0 => n.to_string(),
        1 | 2 => (n + 1).to_string(),
        3 => format!("{n}{}", random.below(10)),
        4 => random.between(n as usize, 300).to_string(),
        5 => random.pick(&WRAPPING).to_string(),
        6 => {
            let digits = (0..29).map(|_| random.below(10).to_string());
            format!("1{}", digits.collect::<String>())
        }
        _ => random
            .pick(&["00", "000", "31", "32", "99", "100"])
            .to_string(),
    }
}

/// Any bytes, or any characters of texts.
fn any_characters(random: &mut Random) -> Told {
    let length = random.below(13);
    let of_texts = !random.once_in(3);
    let mut character = || match of_texts {
        true => random.pick(CHARACTERS),
        false => random.byte(),
    };
    let text: Vec<u8> = (0..length).map(|_| character()).collect();
    Told {
        words: vec![0; length / 2],
        text,
    }
}

/// Texts that end early, or have one character too much or too few, with commas between them.
const EDGE_TEXTS: &str = ",0,00,01,10,1+,1.,+,.,),(,T,T1,T(,T(),T(1,H,H0,H0(,H8(1),H01(1),H(1),(),\
    1),(1,(1),1(,1(1),(1 ,(1 ),(1 #,(1 # ,(1 # ),(1 # 1 ,(1 # 1 # 1),(1#1),T(1 # 1),1 # 1, ,1\n";

fn edge_text(random: &mut Random) -> Told {
    let texts: Vec<&str> = EDGE_TEXTS.split(',').collect();
    Told {
        text: random.pick(&texts).bytes().collect(),
        words: vec![0; random.below(6)],
    }
}
