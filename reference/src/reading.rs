//! Plans for people: a plan in infix signs, and the paths of a basic one.
//!
//! ```
//! use reference::reading::reading;
//!
//! let listing = "end 0 steps 1 size 5 orders 1 stuck 1\n1 0 65 2 64\n7 4\n";
//! assert_eq!(reading(listing)?, "1·δ + 2\n1 δ (stuck)\n2\n");
//! // A word may also be a sign of [`descriptions`](reference::descriptions).
//! let text = reading("1 2 ‖ ∂0")?;
//! assert_eq!(text, "∂0(1 ‖ 2)\nnot basic: no orders, none stuck\n");
//! # Ok::<(), reference::descriptions::Complaint>(())
//! ```
//!
//! # Signs
//!
//! `·` binds closest, then `‖`, `⌊`, `|` and `◁`, all alike, then `+`. `θ(x)` and `∂0(x)` to
//! `∂7(x)` have brackets of their own, and 0 is `δ`. Other brackets stand only where the plan
//! would be another one without them. Two groupings go without:
//!
//! - sums to the left: `1 + 2 + 3` is `(1 + 2) + 3`, and `1 + (2 + 3)` keeps its brackets;
//! - sequences to the right: `1·2·3` is `1·(2·3)`, and `(1·2)·3` keeps its brackets.
//!
//! So the text of two plans is the same only where their words are.
//!
//! # Paths
//!
//! A path is what is seen from the plan's beginning to its end, by one way through its sums.
//! Paths come in the order of the words, one to a line. A path that finishes is an order. A path
//! into a dead stop is not, and has `δ (stuck)` behind its actions.
//!
//! # What is read
//!
//! Either what the program prints, whose lines of steps are passed over, or the words of a plan
//! with blanks between them. There are no tables here, so every action up to 31 is taken.

use crate::descriptions::{word, Complaint};
use crate::plans::{
    counts, is_basic, judge_plan, term, Term, CHOICE, COMMUNICATION_MERGE, ENCAPSULATION,
    LEFT_MERGE, LONGEST_PLAN, MERGE, PRODUCT, THETA,
};
use crate::tables::{DEAD_STOP, MOST_ACTIONS, TABLES_LENGTH};
use std::fmt::{self, Write};

/// One path of a basic plan.
#[derive(Clone, Debug, PartialEq, Eq)]
pub struct Path {
    /// The actions that are seen, dead stop not among them.
    pub actions: Vec<u8>,
    /// Whether dead stop comes then; else the path finishes, and is an order.
    pub stuck: bool,
}

impl fmt::Display for Path {
    /// The actions with blanks between them, and `δ (stuck)` behind where it is.
    fn fmt(&self, f: &mut fmt::Formatter<'_>) -> fmt::Result {
        let actions = self.actions.iter().map(u8::to_string);
        let end = self.stuck.then(|| "δ (stuck)".to_string());
        let words: Vec<String> = actions.chain(end).collect();
        f.write_str(&words.join(" "))
    }
}

/// The plan of a text in infix signs, and below it a line for each of its paths, or one that
/// says that none are counted.
pub fn reading(text: &str) -> Result<String, Complaint> {
    let plan = read(text)?;
    let mut lines = infix(&plan) + "\n";
    if !is_basic(&plan) {
        lines += "not basic: no orders, none stuck\n";
    }
    for path in paths_of(&plan) {
        writeln!(lines, "{path}").expect("a text takes lines");
    }
    Ok(lines)
}

/// The plan of a text.
fn read(text: &str) -> Result<Vec<u8>, Complaint> {
    let mut lines = text.lines();
    let head = lines.next().unwrap_or_default();
    let complaint = |line, expected| Complaint { line, expected };
    let in_head = |expected| complaint(Some((1, head.trim().to_string())), expected);
    match head.split_whitespace().collect::<Vec<&str>>()[..] {
        ["end", _, "steps", _, "size", size, "orders", orders, "stuck", stuck] => {
            let plan = plan(lines.next().unwrap_or_default()).map_err(|e| complaint(None, e))?;
            let counted = counts(&plan);
            let below = [plan.len(), counted.orders, counted.stuck].map(|count| count.to_string());
            if [size, orders, stuck] == below {
                return Ok(plan);
            }
            let [size, orders, stuck] = below;
            let numbers = format!("size {size} orders {orders} stuck {stuck}");
            Err(in_head(format!("`{numbers}`, as the plan below has them")))
        }
        ["end", ..] => Err(in_head("`end E steps S size Z orders O stuck K`".into())),
        ["refused", ..] => Err(in_head("a plan; a refused file has none".into())),
        _ => plan(text).map_err(|e| complaint(None, e)),
    }
}

/// The plan of these words, or what was expected.
fn plan(text: &str) -> Result<Vec<u8>, String> {
    let words = text.split_whitespace().map(word);
    let plan = words.collect::<Result<Vec<u8>, String>>()?;
    let mut tables = [0; TABLES_LENGTH];
    tables[0] = MOST_ACTIONS;
    let Err(refusal) = judge_plan(&tables, &plan) else {
        return Ok(plan);
    };
    let place = refusal.printed();
    Err(match refusal.number {
        11 => format!("a plan of 1 to {LONGEST_PLAN} words, not of {}", plan.len()),
        12 => format!(
            "an action, 0 to {MOST_ACTIONS}, or a sign at place {place}, not {}",
            plan[place]
        ),
        13 => format!("more operands before {} at place {place}", plan[place]),
        _ => "one plan, and more than one is left over".into(),
    })
}

/// What is still to be written of a plan in infix signs.
enum Piece<'t> {
    Plan(&'t Term),
    Text(&'static str),
}

/// An accepted plan in infix signs.
///
/// ```
/// use reference::reading::infix;
///
/// assert_eq!(infix(&[1, 2, 3, 64, 65, 4, 70, 66]), "1·(2 + 3) ‖ θ(4)");
/// ```
pub fn infix(plan: &[u8]) -> String {
    let whole = term(plan);
    let mut text = String::new();
    let mut waiting = vec![Piece::Plan(&whole)];
    while let Some(piece) = waiting.pop() {
        match piece {
            Piece::Text(sign) => text += sign,
            Piece::Plan(Term::Action(DEAD_STOP)) => text += "δ",
            Piece::Plan(Term::Action(action)) => text += &action.to_string(),
            Piece::Plan(Term::One(word, x)) => {
                text += &one_sign(*word);
                put(&mut waiting, x, false);
            }
            Piece::Plan(Term::Two(word, x, y)) => {
                let own = closeness(*word);
                let bare = |operand: &Term, grouping| match operand {
                    Term::Two(inner, ..) => {
                        closeness(*inner) > own || (inner == word && *word == grouping)
                    }
                    _ => true,
                };
                put(&mut waiting, y, bare(y, PRODUCT));
                waiting.push(Piece::Text(two_sign(*word)));
                put(&mut waiting, x, bare(x, CHOICE));
            }
        }
    }
    text
}

/// Puts an operand where it is taken next, with or without brackets.
fn put<'t>(waiting: &mut Vec<Piece<'t>>, operand: &'t Term, bare: bool) {
    if bare {
        waiting.push(Piece::Plan(operand));
    } else {
        waiting.extend([Piece::Text(")"), Piece::Plan(operand), Piece::Text("(")]);
    }
}

/// How close a sign of two operands binds.
fn closeness(word: u8) -> u8 {
    match word {
        CHOICE => 0,
        PRODUCT => 2,
        _ => 1,
    }
}

/// A sign of two operands, with the blanks around it.
fn two_sign(word: u8) -> &'static str {
    match word {
        CHOICE => " + ",
        PRODUCT => "·",
        MERGE => " ‖ ",
        LEFT_MERGE => " ⌊ ",
        COMMUNICATION_MERGE => " | ",
        _ => " ◁ ",
    }
}

/// A sign of one operand.
fn one_sign(word: u8) -> String {
    match word {
        THETA => "θ".into(),
        _ => format!("∂{}", word - ENCAPSULATION),
    }
}

/// The paths of an accepted plan, in the order of its words; none where it is not basic. Those
/// that finish and those that are stuck are as many as [`counts`] says.
///
/// ```
/// use reference::reading::paths_of;
///
/// let paths = paths_of(&[1, 2, 65, 3, 0, 65, 64]);
/// let lines: Vec<String> = paths.iter().map(|path| path.to_string()).collect();
/// assert_eq!(lines, ["1 2", "3 δ (stuck)"]);
/// ```
pub fn paths_of(plan: &[u8]) -> Vec<Path> {
    if !is_basic(plan) {
        return Vec::new();
    }
    let whole = term(plan);
    let mut paths = Vec::new();
    let mut seen = Vec::new();
    // A plan, and how many actions are seen before it.
    let mut waiting = vec![(&whole, 0)];
    while let Some((term, before)) = waiting.pop() {
        seen.truncate(before);
        match term {
            Term::Two(PRODUCT, a, x) => {
                seen.extend(action(a));
                waiting.push((&**x, before + 1));
            }
            Term::Two(_, x, y) => waiting.extend([(&**y, before), (&**x, before)]),
            end => {
                seen.extend(action(end));
                paths.push(Path {
                    actions: seen.clone(),
                    stuck: action(end).is_none(),
                });
            }
        }
    }
    paths
}

/// The action of a term that is one; none for dead stop.
fn action(term: &Term) -> Option<u8> {
    match term {
        Term::Action(action) if *action != DEAD_STOP => Some(*action),
        _ => None,
    }
}
