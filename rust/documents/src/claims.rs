//! docs/CLAIMS.md: the names, clauses and fields that it cites are there.
//!
//! Three rules are read from left to right, each cell and each paragraph by itself. Words that
//! fit none of them are prose.

use crate::declared::Declared;
use crate::markdown::{rows, tokens, Token, Token::*};
use crate::{counts, names, Finding, Repository};

/// The document.
pub const FILE: &str = "docs/CLAIMS.md";

/// What docs/CLAIMS.md says and the repository does not bear out.
pub fn check(repository: &Repository) -> Vec<Finding> {
    let declared = Declared::of(repository);
    check_text(repository, &declared, repository.text(FILE))
}

fn check_text(repository: &Repository, declared: &Declared, text: &str) -> Vec<Finding> {
    let rows = rows(text);
    let mut reader = Reader {
        repository,
        declared,
        line: 0,
        mentions: Vec::new(),
        findings: Vec::new(),
    };
    for row in &rows {
        reader.line = row.line;
        for cell in &row.cells {
            let tokens = tokens(cell);
            reader.names(&tokens);
            reader.clauses(&tokens);
            reader.fields(&tokens);
        }
    }
    let mut findings = reader.findings;
    counts::edits(declared, &rows, &mut findings);
    counts::believed(repository, &rows, &reader.mentions, &mut findings);
    findings.sort();
    findings
}

struct Reader<'a> {
    repository: &'a Repository,
    declared: &'a Declared,
    line: usize,
    /// The files of definitions that are named as modules, with their lines.
    mentions: Vec<(usize, String)>,
    findings: Vec<Finding>,
}

impl Reader<'_> {
    fn find(&mut self, what: String) {
        self.findings.push(Finding::new(FILE, self.line, what));
    }

    /// Names right behind modules of the crate last named are declared in one of these modules;
    /// all other names somewhere in crates/.
    fn names(&mut self, tokens: &[Token]) {
        let (mut krate, mut modules, mut named) = ("", Vec::<&str>::new(), false);
        for (i, token) in tokens.iter().enumerate() {
            match token {
                Code(name) if self.declared.in_modules(krate, &modules, name) => named = true,
                Code(name) if self.declared.crates.contains(name) => {
                    (krate, modules) = (name, Vec::new());
                    if let Some(Word(word)) = tokens.get(i + 1) {
                        let module = word.starts_with(char::is_uppercase);
                        if module && !self.declared.is_module(krate, word) {
                            self.find(format!("crate `{krate}` has no module {word}"));
                        }
                    }
                }
                Code(name) => {
                    let known = self.declared.in_crates(name);
                    if known && !modules.is_empty() && !name.contains([':', '/']) {
                        let modules = modules.join(", ");
                        self.find(format!("`{name}` is not declared in `{krate}` {modules}"));
                    } else if !known && !names::is_free(self.repository, name) {
                        self.find(format!("`{name}` is declared nowhere in crates/"));
                    }
                }
                Word(word) if self.declared.is_module(krate, word) => {
                    if std::mem::take(&mut named) {
                        modules.clear();
                    }
                    modules.push(word);
                    let path = format!("crates/{krate}/specs/{word}.antt");
                    self.mentions.push((self.line, path));
                }
                token if joins(token) => {}
                _ => modules.clear(),
            }
        }
    }

    /// A clause's name right behind a call, or before `of` and calls, is one of that call's.
    fn clauses(&mut self, tokens: &[Token]) {
        let (mut call, mut of, mut last) = ("", "", "");
        for token in tokens {
            match token {
                Code(name) if self.declared.clauses.contains_key(name) => {
                    call = name;
                    self.clause(call, of);
                }
                Code(word) | Word(word) if self.declared.is_clause("", word) => {
                    (last, of) = (word, "");
                    self.clause(call, word);
                }
                Word(word) if word == "of" => (call, of, last) = ("", last, ""),
                token if joins(token) => {}
                _ => (call, of, last) = ("", "", ""),
            }
        }
    }

    fn clause(&mut self, call: &str, clause: &str) {
        if !call.is_empty() && !clause.is_empty() && !self.declared.is_clause(call, clause) {
            self.find(format!("`{call}` has no clause {clause}"));
        }
    }

    /// Words with a hyphen or a low line, and fields' names, right behind a record of claims are
    /// fields of it; behind a clause and a colon, of some such record.
    fn fields(&mut self, tokens: &[Token]) {
        let (all, mut record) = (self.declared, None);
        for (i, token) in tokens.iter().enumerate() {
            match token {
                Code(name) => record = Some(name.as_str()).filter(|n| all.records.contains_key(*n)),
                Mark(':') if i > 0 => {
                    let clause = matches!(&tokens[i - 1], Word(w) if all.is_clause("", w));
                    record = Some("").filter(|_| clause);
                }
                Word(word) if word.contains(['-', '_']) || all.is_field("", word) => {
                    if let Some(of) = record.filter(|of| !all.is_field(of, word)) {
                        let of = if of.is_empty() { "any claims" } else { of };
                        self.find(format!("{word} is no field of {of}"));
                    }
                }
                Mark('(' | ')') => {}
                Word(word) if word.chars().all(|c| c.is_ascii_digit()) => {}
                token if joins(token) => {}
                _ => record = None,
            }
        }
    }
}

/// Whether a list goes on behind this.
fn joins(token: &Token) -> bool {
    *token == Mark(',') || *token == Word("and".to_string())
}

#[cfg(test)]
mod tests {
    use super::*;
    use crate::printed;

    /// Each name of the document is made wrong in turn, and found out.
    #[test]
    fn every_name_counts() {
        let repository = Repository::here();
        let declared = Declared::of(&repository);
        let text = repository.text(FILE);
        let right = check_text(&repository, &declared, text);
        let ticks: Vec<usize> = text.match_indices('`').map(|(at, _)| at).collect();
        for (from, to) in ticks.chunks_exact(2).map(|t| (t[0] + 1, t[1])) {
            let name = &text[from..to];
            let wrong = format!("{}{name}-wrong{}", &text[..from], &text[to..]);
            let found = check_text(&repository, &declared, &wrong);
            let line = text[..from].lines().count();
            let missed = found.iter().all(|finding| right.contains(finding));
            assert!(!missed || name.contains(' '), "{FILE}:{line}: {name}-wrong");
        }
        assert!(ticks.len() > 800, "the document has its names");
    }

    const TRUE: &str = "\
| definition | contract |
|---|---|
| x\\|y `tables` Lawful `Lawful`; `laws` Laws, Fits `laws`, `Fits` | `whole` of each call; `unfold` whole, claims |
| `UnfoldClaims` answered, reached-alike (31) | claims of `unfold`; `aberulwy::inner`; no `requires` |
| `law_4`, `laws/law_4`, `end E`, `0`, `specs/` | `unfold` whole: `laws`; claims: reached-alike; `…-iff` |

| crate | files in `specs/` | lines | without |
|---|---|--:|--:|
| `tables` | Lawful | 3 | 2 |
| together | 1 files | 3 | 2 |

Two files more, 6 lines (4 without): the laws (`laws` Laws) and calls (`aberulwy` Claims).

The other 1 files, 3 lines (2 without), nobody need believe; the `must-fail/` folders hold 2 edits.

| crate | edits |
|---|---|
| `laws` | `law_4` (in `unfold`) |
| `tables` | `row_n` |
";

    #[rustfmt::skip]
    const SOURCES: [(&str, &str); 8] = [
        ("crates/tables/specs/Lawful.antt", "-- A\npub record Lawful : Type 0 where\n  pub fit-iff : C\n"),
        ("crates/tables/must-fail/row_n.edit", ""),
        ("crates/laws/specs/Laws.antt", "use A.{b}\n\nunfoldable pub laws : A\n"),
        ("crates/laws/specs/Fits.antt", "-- Nobody need believe this.\npub data Fits : A where\n  here : Fits\n"),
        ("crates/laws/specs/Lib.antt", "pub mod Laws\n"),
        ("crates/laws/must-fail/law_4.edit", ""),
        ("crates/aberulwy/specs/Claims.antt", "pub record UnfoldClaims : Type 0 where\n  pub answered : A\n  pub reached-alike : A\n"),
        ("crates/aberulwy/src/lib.rt", "pub fn unfold(a: u8)\n    ensures whole { x }\n    ensures claims { y }\n{\n}\nfn inner() {}\n\
            pub fn reached()\n    ensures whole { x }\n    ensures bounded { y }\n{\n}\n"),
    ];

    /// What is right, what is written for it, and what is then found.
    #[rustfmt::skip]
    const WRONG: [(&str, &str, &str); 18] = [
        ("`Lawful`;", "`Unlawful`;", "3: `Unlawful` is declared nowhere in crates/"),
        ("`Lawful`;", "`Fits`;", "3: `Fits` is not declared in `tables` Lawful"),
        ("`Fits` |", "`Lawful` |", "3: `Lawful` is not declared in `laws` Laws, Fits"),
        ("Lawful `L", "Laws `L", "3: crate `tables` has no module Laws"),
        ("`whole` of each call", "bounded of `unfold`", "3: `unfold` has no clause bounded"),
        ("whole, claims", "whole, bounded", "3: `unfold` has no clause bounded"),
        ("claims of `unfold`", "claims of `reached`", "4: `reached` has no clause claims"),
        ("(31)", "(31), too-long", "4: too-long is no field of UnfoldClaims"),
        ("`aberulwy::inner`", "`tables::inner`", "4: `tables::inner` is declared nowhere in crates/"),
        ("`laws/law_4`", "`tables/law_4`", "5: `tables/law_4` is declared nowhere in crates/"),
        ("claims: reached-alike", "claims: not-alike", "5: not-alike is no field of any claims"),
        ("| Lawful | 3", "| Lawful | 4", "9: there are 1 files, 3 lines, 2 without"),
        ("together | 1", "together | 2", "10: there are 1 files, 3 lines, 2 without"),
        ("Two files", "Three files", "12: there are 2 files, 6 lines, 4 without"),
        ("(`laws` Laws)", "", "14: there are 2 files, 6 lines, 3 without"),
        ("hold 2", "hold 3", "14: there are 2 edits"),
        ("`row_n` |", "`row_m` |", "0: the edit tables/row_n is not listed"),
        ("`row_n` |", "`row_n`, `law_4` |", "19: crate `tables` has no edit `law_4`"),
    ];

    #[test]
    fn a_true_document_and_wrong_ones() {
        let repository = Repository::of(&SOURCES);
        let found = |text: &str| printed(check_text(&repository, &Declared::of(&repository), text));
        assert_eq!(found(TRUE), Vec::<String>::new());
        for (right, wrong, what) in WRONG {
            assert!(TRUE.contains(right), "{right}");
            let found = found(&TRUE.replacen(right, wrong, 1));
            let wanted = format!("{FILE}:{what}");
            assert!(found.contains(&wanted), "{wanted}\n{}", found.join("\n"));
        }
    }

    /// Names with low lines, and imports that are passed on.
    #[test]
    fn todays_spelling() {
        let spelt = |text: &str| {
            text.replace("reached-alike", "reached_alike")
                .replace("…-iff", "…_iff")
        };
        let mut sources: Vec<(&str, String)> = SOURCES
            .iter()
            .map(|(path, text)| (*path, spelt(text).replace("fit-iff", "fit_iff")))
            .collect();
        sources[2].1 = sources[2]
            .1
            .replace("use A.{b}\n", "use A.{b}\npub use C.{d}\n");
        let sources: Vec<(&str, &str)> = sources
            .iter()
            .map(|(path, text)| (*path, text.as_str()))
            .collect();
        let repository = Repository::of(&sources);
        let found = |text: &str| printed(check_text(&repository, &Declared::of(&repository), text));
        let right = spelt(TRUE).replace("6 lines (4 without)", "7 lines (4 without)");
        assert_eq!(found(&right), Vec::<String>::new());
        for (from, to, what) in [
            (
                "(31)",
                "(31), too_long",
                "4: too_long is no field of UnfoldClaims",
            ),
            (
                "claims: reached_alike",
                "claims: not_alike",
                "5: not_alike is no field of any claims",
            ),
            (
                "7 lines",
                "6 lines",
                "12: there are 2 files, 7 lines, 4 without",
            ),
        ] {
            let found = found(&right.replacen(from, to, 1));
            assert!(
                found.contains(&format!("{FILE}:{what}")),
                "{what}\n{}",
                found.join("\n")
            );
        }
    }
}
