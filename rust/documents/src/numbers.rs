//! docs/NUMBERS.md has a row for each refusal and each ending that the Rust crate tells, and for
//! no other number; and one for each number in the names of the examples.

use std::collections::BTreeMap;

use crate::markdown::rows;
use crate::{Finding, Repository};

/// The document.
const FILE: &str = "docs/NUMBERS.md";

/// The files that tell the numbers, and what stands behind `N => ` where they do.
const TOLD: [(&str, &str); 3] = [
    ("rust/aberulwy/src/refusals.rs", "\""),
    ("rust/aberulwy/src/unfolding.rs", "Ending::"),
    ("rust/aberulwy/src/checking.rs", "Verdict::"),
];

/// The numbers that one side has and the other has not.
pub fn check(repository: &Repository) -> Vec<Finding> {
    let mut findings = Vec::new();
    let mut listed: BTreeMap<usize, usize> = BTreeMap::new();
    for row in rows(repository.text(FILE)) {
        if row.head.first().is_some_and(|head| head == "number") {
            let number = row.cells[0].parse().ok();
            if number.is_none_or(|n| listed.insert(n, row.line).is_some()) {
                let what = "this row has no number, or that of another";
                findings.push(Finding::new(FILE, row.line, what));
            }
        }
    }
    let mut told: BTreeMap<usize, (&str, usize)> = BTreeMap::new();
    for (file, behind) in TOLD {
        let before = told.len();
        for (i, line) in repository.text(file).lines().enumerate() {
            let arm = line.trim().split_once(" => ");
            if let Some((numbers, _)) = arm.filter(|(_, rest)| rest.starts_with(behind)) {
                let numbers = numbers.split(" | ").filter_map(|n| n.parse().ok());
                told.extend(numbers.map(|n: usize| (n, (file, i + 1))));
            }
        }
        if told.len() == before {
            findings.push(Finding::new(file, 0, "tells no number"));
        }
    }
    for (number, (file, line)) in &told {
        if !listed.contains_key(number) {
            let what = format!("{number} has no row in {FILE}");
            findings.push(Finding::new(file, *line, what));
        }
    }
    for (number, line) in listed.iter().filter(|(n, _)| !told.contains_key(n)) {
        let what = format!("{number} is no refusal and no ending of rust/aberulwy");
        findings.push(Finding::new(FILE, *line, what));
    }
    for path in repository.paths() {
        let parts: Vec<&str> = path.split(['/', '-']).collect();
        if let ["examples", "refused" | "stopped", number, ..] = parts[..] {
            if number.parse().is_ok_and(|n| listed.contains_key(&n)) {
                continue;
            }
            let what = format!("its number has no row in {FILE}");
            findings.push(Finding::new(path, 0, what));
        }
    }
    findings
}

#[cfg(test)]
mod tests {
    use super::*;

    fn found(rows: &str, example: &str) -> Vec<String> {
        let text = format!("| law |\n|---|\n| 9 |\n\n| number | what |\n|--:|---|\n{rows}");
        crate::printed(check(&Repository::of(&[
            (FILE, &text),
            (TOLD[0].0, "    7 => x,\n    1 | 2 => \"tables\",\n"),
            (TOLD[1].0, "    0 => Ending::A,\n    34 => Ending::B,\n"),
            (TOLD[2].0, "    31 => Verdict::C,\n    number => x,\n"),
            (example, ""),
        ])))
    }

    #[test]
    fn every_number_has_its_row() {
        let rows = "| 0 | a |\n| 1 | b |\n| 2 | c |\n| 34 | d |\n| 31 | e |\n";
        let example = "examples/refused/2-count.txt";
        assert!(found(rows, example).is_empty());
        assert_eq!(
            found(&rows.replace("| 2 |", "| 3 |"), example),
            [
                "rust/aberulwy/src/refusals.rs:2: 2 has no row in docs/NUMBERS.md",
                "docs/NUMBERS.md:9: 3 is no refusal and no ending of rust/aberulwy",
                "examples/refused/2-count.txt:0: its number has no row in docs/NUMBERS.md"
            ]
        );
        let twice = rows.replace("| a |", "| a |\n| 0 | a |");
        let wanted = "docs/NUMBERS.md:8: this row has no number, or that of another";
        assert_eq!(found(&twice, "examples/README.md"), [wanted]);
    }
}
