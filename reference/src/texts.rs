//! Plans typed in signs: the plan that a text tells, and a text that tells a plan.
//!
//! ```
//! use reference::tables::trial_tables;
//! use reference::texts::{read_text, typed};
//! use reference::Refusal;
//!
//! let (tables, mut area) = (trial_tables(), [9; 6]);
//! assert_eq!(read_text(&tables, b"H0((1 # 2))", &mut area), Ok(4));
//! assert_eq!(area, [1, 2, 66, 80, 0, 0]);
//! assert_eq!(read_text(&tables, b"1+", &mut area), Err(Refusal::at_byte(61, 2)));
//! assert_eq!(typed(&[1, 2, 3, 64, 65, 70]), b"T(1.(2+3))");
//! ```
//!
//! A text is gone through twice. The first time looks for its first fault, from one character
//! to the next: what may stand there follows from the characters before. The second time takes
//! the words out of a text without fault, with a stack of signs that wait for their last
//! operand.

use crate::plans::{
    term, Term, CHOICE, COMMUNICATION_MERGE, ENCAPSULATION, LEFT_MERGE, LONGEST_PLAN, MERGE,
    PRODUCT, THETA, UNLESS,
};
use crate::refusals::Refusal;
use crate::runs::set;
use crate::tables::{actions, judge_tables};

/// "an opening bracket that goes deeper than 200 is 62".
pub const DEEPEST: usize = 200;

/// Reads a text into an area, and answers the plan's length. "Tables are checked first." "A plan
/// longer than its area or than 16,384 words is 63, after both." "The area keeps its bytes under
/// all of them, and else is zero past the plan."
pub fn read_text(tables: &[u8], text: &[u8], plan_area: &mut [u8]) -> Result<usize, Refusal> {
    judge_tables(tables)?;
    judge_text(tables, text)?;
    let plan = words(text);
    if plan.len() > plan_area.len() || plan.len() > LONGEST_PLAN {
        return Err(Refusal::nowhere(63));
    }
    set(plan_area, &plan);
    Ok(plan.len())
}

/// What the next character of a text can be.
#[derive(Clone, Copy, PartialEq, Eq)]
enum Next {
    /// The first of a unit: "A unit is an action in decimal without leading zeros, `(s)`, `T(s)`,
    /// `H0(s)` to `H7(s)`, or `(s o s)`".
    Unit,
    /// The number of a set, behind `H`.
    Set,
    /// The bracket behind `T`, or behind the number of a set.
    Bracket,
    /// What stands behind a unit: "Products join by `+`, units by `.`", or the end of a bracket,
    /// or the space before o.
    Behind,
    /// "o one of `#` merge, `[` left merge, `|`, `<` unless".
    Sign,
    /// "One space stands on each side of o": the second of them.
    Space,
}

/// "A character that can't go on, a text that ends too early (its place is the text's length),
/// or an action above n (its first digit) is 61; an opening bracket that goes deeper than 200 is
/// 62, at its place; of these the first in the text counts." The tables are accepted ones.
pub fn judge_text(tables: &[u8], text: &[u8]) -> Result<(), Refusal> {
    // For each bracket that is open, whether o may still come in it.
    let mut open: Vec<bool> = Vec::new();
    let mut next = Next::Unit;
    let mut place = 0;
    while place < text.len() {
        let mut length = 1;
        next = match (next, text[place]) {
            (Next::Unit, b'0'..=b'9') => {
                let action = decimal(&text[place..]);
                if number(action) > actions(tables) {
                    return Err(Refusal::at_byte(61, place));
                }
                length = action.len();
                Next::Behind
            }
            (Next::Unit, b'T') => Next::Bracket,
            (Next::Unit, b'H') => Next::Set,
            (Next::Set, b'0'..=b'7') => Next::Bracket,
            (Next::Unit | Next::Bracket, b'(') if open.len() == DEEPEST => {
                return Err(Refusal::at_byte(62, place));
            }
            (Next::Unit, b'(') => {
                open.push(true);
                Next::Unit
            }
            (Next::Bracket, b'(') => {
                open.push(false);
                Next::Unit
            }
            (Next::Behind, b'+' | b'.') => Next::Unit,
            (Next::Behind, b')') if !open.is_empty() => {
                open.pop();
                Next::Behind
            }
            (Next::Behind, b' ') if open.last() == Some(&true) => {
                open.pop();
                open.push(false);
                Next::Sign
            }
            (Next::Sign, b'#' | b'[' | b'|' | b'<') => Next::Space,
            (Next::Space, b' ') => Next::Unit,
            _ => return Err(Refusal::at_byte(61, place)),
        };
        place += length;
    }
    if next == Next::Behind && open.is_empty() {
        Ok(())
    } else {
        Err(Refusal::at_byte(61, text.len()))
    }
}

/// "an action in decimal without leading zeros": the digits that a text begins with, of which
/// there are some. Behind a first 0 no digit can go on.
fn decimal(text: &[u8]) -> &[u8] {
    let digits = text.iter().take_while(|c| c.is_ascii_digit()).count();
    match text[0] {
        b'0' => &text[..1],
        _ => &text[..digits],
    }
}

/// The number that the digits tell; 255 where it is above that.
fn number(digits: &[u8]) -> u8 {
    digits.iter().fold(0, |number: u8, digit| {
        number.saturating_mul(10).saturating_add(digit - b'0')
    })
}

/// What waits for its last operand, or for its end.
enum Waiting {
    /// `+` or `.`, by its word.
    Sign(u8),
    /// An open bracket, with the word that its end brings, if there is one.
    Open(Option<u8>),
}

/// The words of a text without fault.
pub(crate) fn words(text: &[u8]) -> Vec<u8> {
    let mut plan = Vec::new();
    let mut waiting = Vec::new();
    // The word of a `T` or `H0` to `H7` whose bracket comes next.
    let mut letter = None;
    let mut place = 0;
    while place < text.len() {
        let mut length = 1;
        match text[place] {
            b'0'..=b'9' => {
                let action = decimal(&text[place..]);
                plan.push(number(action));
                length = action.len();
            }
            b'T' => letter = Some(THETA),
            b'H' => {
                letter = Some(ENCAPSULATION + number(&text[place + 1..place + 2]));
                length = 2;
            }
            b'(' => waiting.push(Waiting::Open(letter.take())),
            // "both grouping to the left": what stands before is complete.
            b'.' => {
                complete(&mut waiting, &mut plan, &[PRODUCT]);
                waiting.push(Waiting::Sign(PRODUCT));
            }
            b'+' => {
                complete(&mut waiting, &mut plan, &[PRODUCT, CHOICE]);
                waiting.push(Waiting::Sign(CHOICE));
            }
            b')' => {
                complete(&mut waiting, &mut plan, &[PRODUCT, CHOICE]);
                if let Some(Waiting::Open(Some(word))) = waiting.pop() {
                    plan.push(word);
                }
            }
            b' ' => {}
            sign => {
                complete(&mut waiting, &mut plan, &[PRODUCT, CHOICE]);
                waiting.pop();
                waiting.push(Waiting::Open(Some(two_word(sign))));
            }
        }
        place += length;
    }
    complete(&mut waiting, &mut plan, &[PRODUCT, CHOICE]);
    plan
}

/// Puts into the plan those of the signs that wait since the last open bracket, the latest first,
/// up to one that is not among those given.
fn complete(waiting: &mut Vec<Waiting>, plan: &mut Vec<u8>, signs: &[u8]) {
    while let Some(Waiting::Sign(word)) = waiting.last() {
        if !signs.contains(word) {
            break;
        }
        plan.push(*word);
        waiting.pop();
    }
}

/// "o one of `#` merge, `[` left merge, `|`, `<` unless".
fn two_word(sign: u8) -> u8 {
    match sign {
        b'#' => MERGE,
        b'[' => LEFT_MERGE,
        b'|' => COMMUNICATION_MERGE,
        _ => UNLESS,
    }
}

/// The sign of such a word.
fn two_sign(word: u8) -> &'static str {
    match word {
        MERGE => " # ",
        LEFT_MERGE => " [ ",
        COMMUNICATION_MERGE => " | ",
        _ => " < ",
    }
}

/// "a sum is products, a product is units, and a unit may hold a sum": what a plan is as a text.
#[derive(Clone, Copy, PartialEq, Eq, PartialOrd, Ord)]
enum Part {
    Sum,
    Product,
    Unit,
}

/// What is still to be written of a text.
enum Piece<'t> {
    Plan(Part, &'t Term),
    Text(&'static str),
}

/// The text of an accepted plan, with brackets only where the grammar wants them. It is read as
/// this plan, unless it goes deeper than 200.
pub fn typed(plan: &[u8]) -> Vec<u8> {
    let whole = term(plan);
    let mut text = String::new();
    let mut waiting = vec![Piece::Plan(Part::Sum, &whole)];
    while let Some(piece) = waiting.pop() {
        let (wanted, term) = match piece {
            Piece::Plan(wanted, term) => (wanted, term),
            Piece::Text(signs) => {
                text += signs;
                continue;
            }
        };
        // What comes first is put there last.
        match term {
            term if part(term) < wanted => {
                text.push('(');
                waiting.extend([Piece::Text(")"), Piece::Plan(Part::Sum, term)]);
            }
            Term::Action(action) => text += &action.to_string(),
            Term::One(word, x) => {
                text += &one_sign(*word);
                waiting.extend([Piece::Text(")"), Piece::Plan(Part::Sum, x)]);
            }
            Term::Two(CHOICE, x, y) => waiting.extend([
                Piece::Plan(Part::Product, y),
                Piece::Text("+"),
                Piece::Plan(Part::Sum, x),
            ]),
            Term::Two(PRODUCT, x, y) => waiting.extend([
                Piece::Plan(Part::Unit, y),
                Piece::Text("."),
                Piece::Plan(Part::Product, x),
            ]),
            Term::Two(word, x, y) => {
                text.push('(');
                waiting.extend([
                    Piece::Text(")"),
                    Piece::Plan(Part::Sum, y),
                    Piece::Text(two_sign(*word)),
                    Piece::Plan(Part::Sum, x),
                ]);
            }
        }
    }
    text.into_bytes()
}

/// What a term is as a text without further brackets.
fn part(term: &Term) -> Part {
    match term {
        Term::Two(CHOICE, ..) => Part::Sum,
        Term::Two(PRODUCT, ..) => Part::Product,
        _ => Part::Unit,
    }
}

/// `T(`, or `H0(` to `H7(`.
fn one_sign(word: u8) -> String {
    match word {
        THETA => "T(".into(),
        _ => format!("H{}(", word - ENCAPSULATION),
    }
}
