//! The lines of the code can be read: none is longer than 160 characters, in contracts neither.

use crate::{Finding, Repository};

/// The most characters of a line.
const MOST: usize = 160;

/// The lines of the crates' code that are longer.
pub fn check(repository: &Repository) -> Vec<Finding> {
    let mut findings = Vec::new();
    let is_code = |path: &&str| path.starts_with("crates/") && path.ends_with(".rt");
    for path in repository.paths().filter(is_code) {
        for (i, line) in repository.text(path).lines().enumerate() {
            let count = line.chars().count();
            if count > MOST {
                let what = format!("{count} characters, at most {MOST} are read");
                findings.push(Finding::new(path, i + 1, what));
            }
        }
    }
    findings
}

#[cfg(test)]
mod tests {
    use super::*;

    #[test]
    fn lines_as_long_as_may_be_and_longer() {
        let text = format!("{}\n{}\n", "≡".repeat(160), "≡".repeat(161));
        let found = check(&Repository::of(&[("crates/a/src/lib.rt", &text)]));
        let wanted = "crates/a/src/lib.rt:2: 161 characters, at most 160 are read";
        assert_eq!(crate::printed(found), [wanted]);
    }
}
