//! Station files from descriptions: a few lines of text that tell tables and a plan.
//!
//! ```text
//! actions 4
//! 1 | 2 = 3         # 1 and 2 together are seen as 3; written once, it goes both ways
//! 1 < 4             # 4 goes before 1
//! set 0 = 1 2       # what encapsulation by set 0 blocks
//! plan 1 2 ‖ ∂0
//! ```
//!
//! | line | what it tells |
//! |---|---|
//! | `actions N` | the count of actions, 1 to 31; dead stop is put below all of them |
//! | `A \| B = C` | A and B communicate to C, and so do B and A |
//! | `A < B` | B goes before A |
//! | `set H = A B …` | set H, 0 to 7, blocks these actions |
//! | `plan W W …` | the plan's words in postfix order, 1 to 16,632 of them |
//! | `text S` | or the plan typed in signs, as [`texts`](crate::texts) reads it |
//!
//! `actions` stands there once, and either `plan` or `text`; the order of the lines is free. Actions
//! are 0 to 31, 0 being dead stop. `#` begins a comment, but for a line `text`, where it is merge;
//! lines without anything else are passed over. Blanks are free, but for those in a text, and a
//! plan's words stand apart. Where two lines tell an entry, the later one holds.
//!
//! `A < B` tells this pair alone: the order is not closed by itself. With `1 < 2` and `2 < 3` the
//! line `1 < 3` must stand there too; without it the file is refused with 8.
//!
//! A word of a plan is a number, 0 to 255, or a sign:
//!
//! | word | sign | or | |
//! |---|---|---|---|
//! | 0 | `δ` | | dead stop |
//! | 64 | `+` | | choice |
//! | 65 | `·` | `.` | sequence |
//! | 66 | `‖` | `\|\|` | merge |
//! | 67 | `⌊` | `\|_` | left merge |
//! | 68 | `\|` | | communication merge |
//! | 69 | `◁` | `<\|` | unless |
//! | 70 | `θ` | `theta` | priority |
//! | 80 to 87 | `∂0` to `∂7` | `d0` to `d7` | encapsulation by set 0 to 7 |
//!
//! Nothing else is judged here, but that a text is one (61 and 62): whoever reads the file does that, so that a description may also
//! tell tables and plans that are to be refused. The language is this folder's own.

use crate::plans::{
    CHOICE, COMMUNICATION_MERGE, ENCAPSULATION, LEFT_MERGE, MERGE, PRODUCT, THETA, UNLESS,
};
use crate::stations::{station_file, CONTENT, MOST_BLOCKS, TABLE_BLOCKS};
use crate::tables::{entry, COMMUNICATION, DEAD_STOP, MOST_ACTIONS, PRIORITY, SETS, TABLES_LENGTH};
use crate::texts::{judge_text, words};
use std::error::Error;
use std::fmt;

/// The words of the longest plan that blocks hold.
pub const MOST_WORDS: usize = (MOST_BLOCKS - TABLE_BLOCKS) * CONTENT;
/// The number of the last blocked set.
const LAST_SET: u8 = 7;
/// So much of a line is shown.
const SHOWN: usize = 72;

/// The signs of a plan; encapsulation has the number of its set behind it.
const SIGNS: [(&str, u8); 13] = [
    ("δ", DEAD_STOP),
    ("+", CHOICE),
    ("·", PRODUCT),
    (".", PRODUCT),
    ("‖", MERGE),
    ("||", MERGE),
    ("⌊", LEFT_MERGE),
    ("|_", LEFT_MERGE),
    ("|", COMMUNICATION_MERGE),
    ("◁", UNLESS),
    ("<|", UNLESS),
    ("θ", THETA),
    ("theta", THETA),
];

/// Why a text is no description.
#[derive(Clone, Debug, PartialEq, Eq)]
pub struct Complaint {
    /// The line's number, from 1, and its text; none where a line is missing.
    pub line: Option<(usize, String)>,
    /// What was expected, and what stands there.
    pub expected: String,
}

impl fmt::Display for Complaint {
    /// `line N: TEXT`, a long text cut, and below it what was expected.
    fn fmt(&self, f: &mut fmt::Formatter<'_>) -> fmt::Result {
        if let Some((number, text)) = &self.line {
            let shown: String = text.chars().take(SHOWN).collect();
            let rest = if shown.len() < text.len() { " …" } else { "" };
            writeln!(f, "line {number}: {shown}{rest}")?;
        }
        write!(f, "expected {}", self.expected)
    }
}

impl Error for Complaint {}

/// The station file that a text describes.
///
/// ```
/// use reference::descriptions::station;
///
/// let file = station("actions 2\nplan 1 2 ‖  # both in any order\n")?;
/// assert_eq!(file.len(), 6 * 512);
/// assert_eq!(station("actions 2\ntext (1 # 2)\n")?, file);
///
/// let complaint = station("actions 2\nplan 1 2 &\n").unwrap_err();
/// assert_eq!(
///     complaint.to_string(),
///     "line 2: plan 1 2 &\nexpected a word of a plan (0 to 255, or a sign), not `&`"
/// );
/// # Ok::<(), reference::descriptions::Complaint>(())
/// ```
pub fn station(text: &str) -> Result<Vec<u8>, Complaint> {
    let mut told = Told {
        tables: [0; TABLES_LENGTH],
        counted: false,
        plan: None,
    };
    for (index, line) in text.lines().enumerate() {
        told.line(index + 1, line).map_err(|expected| Complaint {
            line: Some((index + 1, line.trim().to_string())),
            expected,
        })?;
    }
    told.file()
}

/// What the lines so far tell.
struct Told {
    tables: [u8; TABLES_LENGTH],
    /// Whether a line told the count of actions.
    counted: bool,
    plan: Option<Plan>,
}

/// A plan as a line tells it.
enum Plan {
    Words(Vec<u8>),
    /// A text and the number of its line: it can be judged when the count of actions is known.
    Text(usize, String),
}

impl Told {
    /// Takes a line, or answers what was expected in it.
    fn line(&mut self, number: usize, line: &str) -> Result<(), String> {
        if let Some(text) = line.trim_start().strip_prefix("text ") {
            return self.told(Plan::Text(number, text.trim().to_string()));
        }
        let line = line.split('#').next().unwrap_or_default();
        let mut words = line.split_whitespace();
        if words.next() == Some("plan") {
            return self.plan(words);
        }
        let apart = ["|", "<", "="].iter().fold(line.to_string(), |line, sign| {
            line.replace(sign, &format!(" {sign} "))
        });
        match apart.split_whitespace().collect::<Vec<&str>>()[..] {
            [] => Ok(()),
            ["actions", count] => self.actions(count),
            ["set", set, "=", ref actions @ ..] => self.set(set, actions),
            [a, "|", b, "=", c] => self.communication(a, b, c),
            [a, "<", b] => self.priority(a, b),
            _ => Err(
                "`actions N`, `A | B = C`, `A < B`, `set H = A B …`, `plan W W …` or `text S`"
                    .into(),
            ),
        }
    }

    /// The count of actions; dead stop is below each.
    fn actions(&mut self, count: &str) -> Result<(), String> {
        if self.counted {
            return Err("one line `actions N`, and this is a second one".into());
        }
        let count = number(count, MOST_ACTIONS)
            .filter(|&count| count > 0)
            .ok_or_else(|| format!("a count of actions, 1 to {MOST_ACTIONS}, not `{count}`"))?;
        self.tables[0] = count;
        for action in 1..=count {
            self.tables[PRIORITY + entry(DEAD_STOP, action)] = 1;
        }
        self.counted = true;
        Ok(())
    }

    fn communication(&mut self, a: &str, b: &str, c: &str) -> Result<(), String> {
        let (a, b, c) = (action(a)?, action(b)?, action(c)?);
        for pair in [entry(a, b), entry(b, a)] {
            self.tables[COMMUNICATION + pair] = c;
        }
        Ok(())
    }

    fn priority(&mut self, a: &str, b: &str) -> Result<(), String> {
        self.tables[PRIORITY + entry(action(a)?, action(b)?)] = 1;
        Ok(())
    }

    fn set(&mut self, set: &str, actions: &[&str]) -> Result<(), String> {
        let set = number(set, LAST_SET)
            .ok_or_else(|| format!("a blocked set, 0 to {LAST_SET}, not `{set}`"))?;
        for blocked in actions {
            self.tables[SETS + entry(set, action(blocked)?)] = 1;
        }
        Ok(())
    }

    fn plan<'t>(&mut self, words: impl Iterator<Item = &'t str>) -> Result<(), String> {
        let plan = words.map(word).collect::<Result<Vec<u8>, String>>()?;
        if plan.is_empty() {
            return Err("a word or more behind `plan`".into());
        }
        fits(&plan)?;
        self.told(Plan::Words(plan))
    }

    /// The plan, of which one is told.
    fn told(&mut self, plan: Plan) -> Result<(), String> {
        if self.plan.is_some() {
            return Err("one line `plan W W …` or `text S`, and this is a second one".into());
        }
        self.plan = Some(plan);
        Ok(())
    }

    /// The station file, or which line is missing, or what is wrong with the text.
    fn file(self) -> Result<Vec<u8>, Complaint> {
        let missing = |line: &str| Complaint {
            line: None,
            expected: format!("a line {line}, and there is none"),
        };
        if !self.counted {
            return Err(missing("`actions N`"));
        }
        let plan = match self.plan {
            None => return Err(missing("`plan W W …` or `text S`")),
            Some(Plan::Words(plan)) => plan,
            Some(Plan::Text(number, text)) => {
                plan_of(&self.tables, &text).map_err(|expected| Complaint {
                    line: Some((number, format!("text {text}"))),
                    expected,
                })?
            }
        };
        Ok(station_file(&self.tables, &plan))
    }
}

/// The plan that a text is, or what was expected.
fn plan_of(tables: &[u8], text: &str) -> Result<Vec<u8>, String> {
    if let Err(refusal) = judge_text(tables, text.as_bytes()) {
        let (number, place) = (refusal.number, refusal.place.printed());
        let rest = String::from_utf8_lossy(&text.as_bytes()[place..]);
        return Err(match rest.is_empty() {
            true => format!("a plan in signs, and the text ends too early (refusal {number})"),
            false => {
                format!("a plan in signs, and at place {place} stands `{rest}` (refusal {number})")
            }
        });
    }
    let plan = words(text.as_bytes());
    fits(&plan)?;
    Ok(plan)
}

/// Whether blocks hold a plan.
fn fits(plan: &[u8]) -> Result<(), String> {
    match plan.len() {
        0..=MOST_WORDS => Ok(()),
        many => Err(format!("at most {MOST_WORDS} words, not {many}")),
    }
}

/// An action, or what was expected.
fn action(text: &str) -> Result<u8, String> {
    number(text, MOST_ACTIONS)
        .ok_or_else(|| format!("an action, 0 to {MOST_ACTIONS}, not `{text}`"))
}

/// A word of a plan, or what was expected.
pub(crate) fn word(text: &str) -> Result<u8, String> {
    let sign = SIGNS.iter().find(|(sign, _)| *sign == text);
    sign.map(|&(_, word)| word)
        .or_else(|| encapsulation(text))
        .or_else(|| number(text, u8::MAX))
        .ok_or_else(|| format!("a word of a plan (0 to 255, or a sign), not `{text}`"))
}

/// The word of `∂0` to `∂7`, and of `d0` to `d7`.
fn encapsulation(text: &str) -> Option<u8> {
    let set = text.strip_prefix(['∂', 'd'])?;
    Some(ENCAPSULATION + number(set, LAST_SET)?)
}

/// A number up to the highest one.
fn number(text: &str, highest: u8) -> Option<u8> {
    let digits = text.bytes().all(|byte| byte.is_ascii_digit());
    let value: u8 = text.parse().ok()?;
    (digits && value <= highest).then_some(value)
}
