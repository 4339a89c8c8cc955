//! One version in four places.

use crate::{Finding, Repository};

/// The files, the line behind which each has its version, and what stands right before it.
const PLACES: [(&str, &str, &str); 4] = [
    ("rust/Cargo.toml", "[workspace.package]", "version = \""),
    ("reference/Cargo.toml", "[package]", "version = \""),
    ("CHANGELOG.md", "# Changelog", "## "),
    ("include/aberulwy.h", "", "#define ABERULWY_VERSION \""),
];

/// The places that have no version, or another than the first.
pub fn check(repository: &Repository) -> Vec<Finding> {
    let mut findings = Vec::new();
    let mut first = None;
    for (file, behind, before) in PLACES {
        let lines = repository.text(file).lines().enumerate();
        let mut lines = lines.skip_while(|(_, line)| !behind.is_empty() && *line != behind);
        let Some((i, version)) = lines.find_map(|(i, line)| {
            let rest = line.strip_prefix(before)?;
            let end = rest.find(|c: char| !(c.is_ascii_digit() || c == '.'));
            Some((i, &rest[..end.unwrap_or(rest.len())])).filter(|(_, v)| v.contains('.'))
        }) else {
            findings.push(Finding::new(file, 0, "has no version"));
            continue;
        };
        let wanted = *first.get_or_insert(version);
        if version != wanted {
            let what = format!("version {version}, but {} has {wanted}", PLACES[0].0);
            findings.push(Finding::new(file, i + 1, what));
        }
    }
    findings
}

#[cfg(test)]
mod tests {
    use super::*;

    const RUST: &str = "[a]\nversion = \"9.9.9\"\n[workspace.package]\nversion = \"0.2.0\"\n";
    const REFERENCE: &str = "[package]\nname = \"r\"\nversion = \"0.2.0\"\n";

    fn found(changes: &str, header: &str) -> Vec<String> {
        let texts = [RUST, REFERENCE, changes, header];
        let files: Vec<(&str, &str)> = PLACES.iter().map(|p| p.0).zip(texts).collect();
        crate::printed(check(&Repository::of(&files)))
    }

    #[test]
    fn one_version_and_others() {
        let header = "/* 1 */\n#define ABERULWY_VERSION \"0.2.0\"\n";
        let changes = "# Changelog\n\n## Next\n## 0.2.0 (2026-11-16)\n## 0.1.0\n";
        assert!(found(changes, header).is_empty());
        assert_eq!(
            found(&changes.replace("0.2.0", "0.3.0"), "int x;"),
            [
                "CHANGELOG.md:4: version 0.3.0, but rust/Cargo.toml has 0.2.0",
                "include/aberulwy.h:0: has no version"
            ]
        );
    }
}
