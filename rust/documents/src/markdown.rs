//! Markdown as the documents use it: a paragraph is a line, and tables have a head.

/// A line outside code: the cells of a table's row, or one cell that is the line.
#[derive(Clone, Debug, Default, PartialEq, Eq)]
pub struct Row {
    /// Its line in the document.
    pub line: usize,
    /// The head of its table; empty outside tables and of the head itself.
    pub head: Vec<String>,
    /// Its cells.
    pub cells: Vec<String>,
}

/// A piece of running text.
#[derive(Clone, Debug, PartialEq, Eq)]
pub enum Token {
    /// What stands between backticks.
    Code(String),
    /// A word, with its hyphens.
    Word(String),
    /// Any other sign.
    Mark(char),
}

/// The lines of a document with their numbers, each with whether it stands in a block of code.
fn lines(text: &str) -> Vec<(usize, bool, &str)> {
    let mut code = false;
    let mut found = Vec::new();
    for (i, line) in text.lines().enumerate() {
        if line.trim().starts_with("```") {
            code = !code;
        } else {
            found.push((i + 1, code, line));
        }
    }
    found
}

/// The lines outside code.
pub fn prose(text: &str) -> Vec<(usize, &str)> {
    let outside = lines(text).into_iter().filter(|(_, code, _)| !code);
    outside.map(|(i, _, line)| (i, line)).collect()
}

/// The blocks of code: their lines, with their numbers.
pub fn code(text: &str) -> Vec<Vec<(usize, &str)>> {
    let mut found: Vec<Vec<(usize, &str)>> = Vec::new();
    for (i, code, line) in lines(text) {
        match found.last_mut() {
            Some(block) if code && block.last().is_some_and(|l| l.0 + 1 == i) => {
                block.push((i, line));
            }
            _ if code => found.push(vec![(i, line)]),
            _ => {}
        }
    }
    found
}

/// The lines outside code, in their cells.
pub fn rows(text: &str) -> Vec<Row> {
    let mut head = Vec::new();
    let mut found = Vec::new();
    for (line, text) in prose(text) {
        let row = text.trim().strip_prefix('|');
        let cells = row.map_or(vec![text.to_string()], cells);
        if row.is_none() {
            head.clear();
        }
        if row.is_none_or(|row| !row.starts_with("--")) {
            let (head, cells) = (head.clone(), cells.clone());
            found.push(Row { line, head, cells });
        }
        if row.is_some() && head.is_empty() {
            head = cells;
        }
    }
    found
}

/// The cells of a table's line, without its first stroke.
fn cells(row: &str) -> Vec<String> {
    let row = row.replace("\\|", "\0");
    let cell = |cell: &str| cell.trim().replace('\0', "|");
    let cells = row.trim_end().trim_end_matches('|').split('|');
    cells.map(cell).collect()
}

/// The tokens of a text.
pub fn tokens(text: &str) -> Vec<Token> {
    let mut found = Vec::new();
    for (i, part) in text.split('`').enumerate() {
        if i % 2 == 1 {
            found.push(Token::Code(part.to_string()));
            continue;
        }
        let mut word = String::new();
        for sign in part.chars().chain([' ']) {
            if sign.is_alphanumeric() || (!word.is_empty() && "-'’_".contains(sign)) {
                word.push(sign);
                continue;
            }
            if !word.is_empty() {
                found.push(Token::Word(std::mem::take(&mut word)));
            }
            if !sign.is_whitespace() {
                found.push(Token::Mark(sign));
            }
        }
    }
    found
}

/// What stands between backticks.
pub fn codes(text: &str) -> impl Iterator<Item = &str> {
    text.split('`').skip(1).step_by(2)
}

/// The numbers of a text: digits, with commas, or a word up to twenty.
pub fn numbers(text: &str) -> Vec<usize> {
    const WORDS: &str = "zero one two three four five six seven eight nine ten eleven twelve \
        thirteen fourteen fifteen sixteen seventeen eighteen nineteen twenty";
    let number = |word: &str| {
        let word = word.trim_matches(|c: char| !c.is_alphanumeric());
        let small = WORDS.split(' ').position(|w| w == word.to_lowercase());
        small.or_else(|| word.replace(',', "").parse().ok())
    };
    text.split_whitespace().filter_map(number).collect()
}
