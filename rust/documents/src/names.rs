//! The names between backticks in the other documents: each is declared somewhere, or is a crate,
//! a module, a must-fail edit or a path.

use crate::claims;
use crate::declared::Declared;
use crate::markdown::{codes, prose};
use crate::{Finding, Repository};

/// The documents.
const FILES: [&str; 6] = [
    "CONTRIBUTING.md",
    "README.md",
    "docs/DECISIONS.md",
    "docs/DESIGN.md",
    "docs/FORMATS.md",
    "docs/SCOPE.md",
];

/// Names that no file declares, by what they are.
const EXCEPTIONS: &[(&str, &str)] = &[
    ("words of Rattle", "const loop match requires self u16"),
    ("words of antt", "abbrev elim omega rw search unfoldable"),
    ("commands", "cargo cc python3 rt"),
    ("a parameter of the grammar's definitions", "write"),
    ("an out number of a call for C", "*basic"),
    ("the kit of the figures", "rattle-kit-5b-plain"),
    ("a constructor behind its type", "Pattern.x"),
    (
        "files that are made",
        "libaberulwy_c.a my-bench.description",
    ),
    ("functions that were there and are not", "put_1 put_11"),
];

fn exceptions() -> impl Iterator<Item = &'static str> {
    EXCEPTIONS.iter().flat_map(|(_, names)| names.split(' '))
}

/// What these documents name and the repository does not have.
pub fn check(repository: &Repository) -> Vec<Finding> {
    let declared = Declared::of(repository);
    let mut findings = Vec::new();
    for file in FILES {
        if repository.text(file).is_empty() {
            findings.push(Finding::new(file, 0, "is not there"));
        }
        for (line, text) in prose(repository.text(file)) {
            for name in codes(text).filter(|code| is_name(code)) {
                let known = declared.in_crates(name) || declared.elsewhere.contains(name);
                if !known && !is_free(repository, name) {
                    let what = format!("`{name}` is declared nowhere");
                    findings.push(Finding::new(file, line, what));
                }
            }
        }
    }
    findings
}

/// Whether this looks like a name or a path.
fn is_name(code: &str) -> bool {
    let sign = |c: char| c.is_ascii_alphanumeric() || "-_?*./:'".contains(c);
    let begins = code.starts_with(|c: char| c.is_ascii_alphabetic()) || code.contains('/');
    begins && code.len() > 1 && code.chars().all(sign)
}

/// Whether this needs no declaration: a quotation, a number, a path or an exception.
pub fn is_free(repository: &Repository, code: &str) -> bool {
    code.contains(' ')
        || is_projection(code)
        || code.chars().all(|c| c.is_ascii_digit())
        || code.starts_with("target/")
        || exceptions().any(|name| name == code)
        || repository.has_part(code)
}

/// Whether this is a field of a variable of one letter, as clauses and proofs have them.
fn is_projection(code: &str) -> bool {
    let letter = |c: char| c.is_ascii_lowercase();
    matches!(code.split_once('.'), Some((of, field)) if of.len() == 1 && of.starts_with(letter) && field.starts_with(letter))
}

/// The exceptions that no document needs.
pub fn unneeded(repository: &Repository) -> Vec<Finding> {
    let declared = Declared::of(repository);
    let mut findings = Vec::new();
    for name in exceptions() {
        let mut files = FILES.into_iter().chain([claims::FILE]);
        let met = files.any(|file| repository.text(file).contains(&format!("`{name}`")));
        if !met || declared.in_crates(name) {
            let what = format!("the exception `{name}` is not needed");
            findings.push(Finding::new("rust/documents/src/names.rs", 0, what));
        }
    }
    findings
}

#[cfg(test)]
mod tests {
    use super::*;
    use crate::printed;

    #[rustfmt::skip]
    const SOURCES: [(&str, &str); 5] = [
        ("crates/tables/specs/Lawful.antt", "-- not : this\nuse lib.ListN.{getD, take}\npub record Lawful :\nf = let k : A\n"),
        ("crates/plans/src/lib.rt", "// fn gone\nconst fn judge() { io::decimal(3) }\n"),
        ("crates/plans/must-fail/row_n.edit", ""),
        ("rust/aberulwy/src/lib.rs", "pub enum Ending {\n    Finished(u8),\n}\n"),
        ("include/aberulwy.h", "int aberulwy_unfold(void);"),
    ];

    fn repository(text: &str) -> Repository {
        let others = FILES.iter().map(|file| (*file, "# Head"));
        let files = SOURCES.into_iter().chain(others);
        let files: Vec<(&str, &str)> = files.chain([(FILES[3], text)]).collect();
        Repository::of(&files)
    }

    #[test]
    fn names_that_are_there() {
        let text = "`Lawful` `plans` `judge` `plans::judge` `row_n` `plans/row_n` `io::decimal` `specs/Lawful` \
            `specs/` `specs/*.antt` `Finished` `aberulwy_unfold` `take` `lib.ListN` `refused N P` `match` `x·y` `crates/NAME/specs` \
            `x.now` `c.loop-read.invariant`";
        assert_eq!(check(&repository(text)), []);
    }

    #[test]
    fn names_that_are_not() {
        let wrong =
            "Unlawful not plan gone let plans::decimal io::binary specs/Unlawful crates/specs \
            plans/*.antt plans/row_m tables/row_n lib.rs.rt cc.args c.0 A.b";
        for name in wrong.split(' ') {
            let wanted = [format!("docs/DESIGN.md:2: `{name}` is declared nowhere")];
            let found = check(&repository(&format!("a\n| `Lawful` | `{name}` |")));
            assert_eq!(printed(found), wanted);
        }
    }

    #[test]
    fn exceptions_that_nobody_needs() {
        let found = unneeded(&repository("`match` `loop`"));
        assert_eq!(found.len(), exceptions().count() - 2);
    }
}
