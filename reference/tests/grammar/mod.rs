//! The grammar of texts, rule by rule, and what follows from the rules alone: where a text has its
//! first fault, and which texts there are.

use std::collections::BTreeMap;

/// "a sum is products, a product is units, and a unit may hold a sum": s, p and u. The other small
/// letters are a, an action; f, its first digits; and one character each: o, a sign; k, the number
/// of a set; d, a digit; e, a digit other than 0.
const RULES: [(u8, &[u8]); 13] = [
    (b's', b"p"),
    (b's', b"s+p"),
    (b'p', b"u"),
    (b'p', b"p.u"),
    (b'u', b"a"),
    (b'u', b"(s)"),
    (b'u', b"T(s)"),
    (b'u', b"Hk(s)"),
    (b'u', b"(s o s)"),
    (b'a', b"0"),
    (b'a', b"f"),
    (b'f', b"e"),
    (b'f', b"fd"),
];

/// Whether a letter that has no rule stands for this character.
fn stands_for(letter: u8, character: u8) -> bool {
    match letter {
        b'o' => b"#[|<".contains(&character),
        b'k' => (b'0'..=b'7').contains(&character),
        b'd' => character.is_ascii_digit(),
        b'e' => (b'1'..=b'9').contains(&character),
        _ => letter == character,
    }
}

/// A rule of which a beginning was found.
#[derive(Clone, Copy, PartialEq, Eq)]
struct Begun {
    rule: usize,
    /// How many letters of it were found.
    found: usize,
    /// The place of the first of them.
    place: usize,
}

impl Begun {
    /// The letter that comes next; none where all were found.
    fn letter(&self) -> Option<u8> {
        RULES[self.rule].1.get(self.found).copied()
    }

    fn one_more(&self) -> Begun {
        Begun {
            found: self.found + 1,
            ..*self
        }
    }
}

/// The rules of a part, all to be found from this place on.
fn rules_of(part: u8, place: usize) -> Vec<Begun> {
    let rules = (0..RULES.len()).filter(|&rule| RULES[rule].0 == part);
    let begin = |rule| Begun {
        rule,
        found: 0,
        place,
    };
    rules.map(begin).collect()
}

/// How many characters at the head of a text begin some text of the grammar, and whether the
/// whole is one. All rules are followed side by side, as Earley does it.
fn derivable(text: &[u8]) -> (usize, bool) {
    let mut begun = vec![rules_of(b's', 0)];
    for place in 0..=text.len() {
        let mut here = begun[place].clone();
        let mut next = Vec::new();
        let mut index = 0;
        while let Some(&one) = here.get(index) {
            let further = match one.letter() {
                None => {
                    let part = RULES[one.rule].0;
                    let waiting = begun[one.place].iter();
                    let waiting = waiting.filter(|other| other.letter() == Some(part));
                    waiting.map(Begun::one_more).collect()
                }
                Some(letter) => rules_of(letter, place),
            };
            let stands = |letter| place < text.len() && stands_for(letter, text[place]);
            if further.is_empty() && one.letter().is_some_and(stands) {
                next.push(one.one_more());
            }
            for one in further {
                if !here.contains(&one) {
                    here.push(one);
                }
            }
            index += 1;
        }
        if next.is_empty() {
            let sum = |one: &Begun| RULES[one.rule].0 == b's' && one.place == 0;
            let whole = here.iter().any(|one| sum(one) && one.letter().is_none());
            return (place, whole && place == text.len());
        }
        begun[place] = here;
        begun.push(next);
    }
    unreachable!("no character stands behind the last");
}

/// The kinds of faults, in the order of the request.
#[derive(Clone, Copy, Debug, PartialEq, Eq, PartialOrd, Ord)]
pub enum Fault {
    CannotGoOn,
    EndsTooEarly,
    AboveN,
    TooDeep,
}

impl Fault {
    pub fn number(self) -> u8 {
        match self {
            Fault::TooDeep => 62,
            _ => 61,
        }
    }
}

/// "A character that can't go on, a text that ends too early (its place is the text's length), or
/// an action above n (its first digit) is 61; an opening bracket that goes deeper than 200 is 62,
/// at its place; of these the first in the text counts."
pub fn first_fault(n: u8, text: &[u8]) -> Option<(usize, Fault)> {
    let (length, whole) = derivable(text);
    let mut faults = Vec::new();
    if length < text.len() {
        faults.push((length, Fault::CannotGoOn));
    } else if !whole {
        faults.push((length, Fault::EndsTooEarly));
    }
    let begin = &text[..length];
    faults.extend(above(n, begin).map(|place| (place, Fault::AboveN)));
    faults.extend(too_deep(begin).map(|place| (place, Fault::TooDeep)));
    faults.into_iter().min()
}

/// The first digit of the first action above n; the number of a set is no action.
fn above(n: u8, text: &[u8]) -> Option<usize> {
    let is_digit = |place: usize| text[place].is_ascii_digit();
    let begins = |place: &usize| {
        is_digit(*place) && (*place == 0 || !is_digit(place - 1) && text[place - 1] != b'H')
    };
    let is_above = |place: &usize| {
        let digits = text[*place..].iter().take_while(|c| c.is_ascii_digit());
        let digits: String = digits.map(|&digit| digit as char).collect();
        digits.len() > 2 || digits.parse::<u8>().unwrap() > n
    };
    (0..text.len()).filter(begins).find(is_above)
}

/// The first bracket that goes deeper than 200.
pub fn too_deep(text: &[u8]) -> Option<usize> {
    let mut depth = 0;
    text.iter().position(|character| {
        depth += i32::from(*character == b'(') - i32::from(*character == b')');
        depth > 200
    })
}

/// Texts with the words of their plans.
type Texts = Vec<(String, Vec<u8>)>;

/// Every text of at most so many of the characters `01+.()TH #`, made by the rules, with the plan
/// that they give. "as one plan only": no text is made twice.
pub fn every_text(most: usize) -> BTreeMap<String, Vec<u8>> {
    // For each length, those of it; of length 0 there are none.
    let mut sums: Vec<Texts> = vec![vec![]];
    let (mut products, mut units) = (sums.clone(), sums.clone());
    for length in 1..=most {
        let mut made: Texts = Vec::new();
        if length == 1 {
            made.extend([("0".into(), vec![0]), ("1".into(), vec![1])]);
        } else {
            let inner = joined(&sums, " # ", &sums, 66, length - 2);
            made.extend(
                inner
                    .into_iter()
                    .map(|(text, plan)| (format!("({text})"), plan)),
            );
        }
        for (head, word) in [
            ("(", None),
            ("T(", Some(70)),
            ("H0(", Some(80)),
            ("H1(", Some(81)),
        ] {
            if length > head.len() {
                let inner = &sums[length - head.len() - 1];
                made.extend(inner.iter().map(|(text, plan)| {
                    let plan = plan.iter().copied().chain(word);
                    (format!("{head}{text})"), plan.collect())
                }));
            }
        }
        units.push(made.clone());
        made.extend(joined(&products, ".", &units, 65, length));
        products.push(made.clone());
        made.extend(joined(&sums, "+", &products, 64, length));
        sums.push(made);
    }
    let all = sums.concat();
    let count = all.len();
    let texts: BTreeMap<String, Vec<u8>> = all.into_iter().collect();
    assert_eq!(texts.len(), count, "a text was made twice");
    texts
}

/// All texts of this length that have one of the left, the signs and one of the right.
fn joined(left: &[Texts], signs: &str, right: &[Texts], word: u8, length: usize) -> Texts {
    let mut made = Vec::new();
    for first in 1..length.saturating_sub(signs.len()) {
        for (x, x_words) in &left[first] {
            for (y, y_words) in &right[length - signs.len() - first] {
                let words = [&x_words[..], y_words, &[word]].concat();
                made.push((format!("{x}{signs}{y}"), words));
            }
        }
    }
    made
}
