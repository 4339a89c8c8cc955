//! What docs/CLAIMS.md counts: the must-fail edits, and the files of definitions to believe.

use std::collections::BTreeSet;

use crate::claims::FILE;
use crate::declared::Declared;
use crate::markdown::{codes, numbers, Row};
use crate::{Finding, Repository};

/// The table of edits has each edit in its crate's row, and a sentence says `hold N edits`.
pub fn edits(declared: &Declared, rows: &[Row], findings: &mut Vec<Finding>) {
    let mut find = |line, what| findings.push(Finding::new(FILE, line, what));
    let mut listed = BTreeSet::new();
    for row in rows.iter().filter(|row| row.head == ["crate", "edits"]) {
        let krate = codes(&row.cells[0]).next().unwrap_or("");
        for name in row.cells.iter().skip(1).flat_map(|cell| codes(cell)) {
            let edit = format!("{krate}/{name}");
            let is_edit = |edit: &String| edit.ends_with(&format!("/{name}"));
            if declared.edits.iter().any(is_edit) && !declared.edits.contains(&edit) {
                find(row.line, format!("crate `{krate}` has no edit `{name}`"));
            }
            listed.insert(edit);
        }
    }
    for edit in declared.edits.difference(&listed) {
        find(0, format!("the edit {edit} is not listed"));
    }
    let (line, text) = paragraph(rows, "folders hold ");
    let stated = text.split("folders hold ").last().map(numbers);
    if stated.and_then(|n| n.first().copied()) != Some(declared.edits.len()) {
        find(line, format!("there are {} edits", declared.edits.len()));
    }
}

/// The files of definitions: a table has those to believe for demand 3, a sentence names those
/// for what is claimed besides, and of the others each says that nobody need believe it.
pub fn believed(
    repository: &Repository,
    rows: &[Row],
    mentions: &[(usize, String)],
    findings: &mut Vec<Finding>,
) {
    let mut compare = |line: usize, files: &BTreeSet<String>, stated: &[usize]| {
        let counted = count(repository, files);
        if stated.len() < 2 || !counted.ends_with(&stated[..stated.len().min(3)]) {
            let [files, lines, without] = counted;
            let what = format!("there are {files} files, {lines} lines, {without} without");
            findings.push(Finding::new(FILE, line, what));
        }
    };
    let mut seen = BTreeSet::new();
    let is_table = |row: &&Row| row.head.get(1).is_some_and(|h| h.starts_with("files in"));
    for row in rows.iter().filter(is_table) {
        let stated = numbers(&row.cells[1..].join(" "));
        if let Some(krate) = codes(&row.cells[0]).next() {
            let file = |file| format!("crates/{krate}/specs/{file}.antt");
            let files = row.cells[1].split(", ").map(file).collect();
            compare(row.line, &files, &stated);
            seen.extend(files);
        } else {
            compare(row.line, &seen, &stated);
        }
    }
    let (line, text) = paragraph(rows, " files more, ");
    let named = mentions.iter().filter(|mention| mention.0 == line);
    let named = named.map(|mention| mention.1.clone()).collect();
    compare(line, &named, &numbers(text));
    let all = repository.paths().filter(|path| {
        let parts: Vec<&str> = path.split('/').collect();
        matches!(parts[..], ["crates", _, "specs", f] if f.ends_with(".antt") && f != "Lib.antt")
    });
    let others = all.filter(|path| !seen.contains(*path) && !named.contains(*path));
    let others: BTreeSet<String> = others.map(str::to_string).collect();
    let (line, text) = paragraph(rows, "nobody need believe");
    compare(line, &others, &numbers(text));
    for path in &others {
        let first = repository.text(path).lines().next().unwrap_or("");
        if !first.to_lowercase().contains("nobody need believe") {
            let what = "its first line does not say that nobody need believe it";
            findings.push(Finding::new(path, 1, what));
        }
    }
}

/// How many files these are, their lines, and their lines without imports, comments and blanks.
fn count(repository: &Repository, files: &BTreeSet<String>) -> [usize; 3] {
    let lines = || files.iter().flat_map(|file| repository.text(file).lines());
    let starts = ["--", "use ", "pub use "];
    let apart = |l: &&str| l.is_empty() || starts.iter().any(|start| l.starts_with(start));
    let without = lines().map(str::trim).filter(|line| !apart(line));
    let files = files.iter().filter(|file| repository.has(file));
    [files.count(), lines().count(), without.count()]
}

/// The first paragraph that has these words, with its line.
fn paragraph<'a>(rows: &'a [Row], words: &str) -> (usize, &'a str) {
    let row = rows.iter().find(|row| row.cells[0].contains(words));
    row.map_or((0, ""), |row| (row.line, &row.cells[0]))
}
