//! Relative links between the documents lead to files, folders and headings that are there.

use crate::markdown::prose;
use crate::{Finding, Repository};

/// The links of all documents that lead nowhere.
pub fn check(repository: &Repository) -> Vec<Finding> {
    let mut findings = Vec::new();
    for file in repository.paths().filter(|path| path.ends_with(".md")) {
        for (line, text) in prose(repository.text(file)) {
            let plain = text.split('`').step_by(2).collect::<String>();
            for part in plain.split("](").skip(1) {
                let link = part.split(')').next().unwrap_or("");
                if !link.contains("://") && !leads(repository, file, link) {
                    let what = format!("the link {link} leads nowhere");
                    findings.push(Finding::new(file, line, what));
                }
            }
        }
    }
    findings
}

/// Whether a link in a file leads to a file or a folder, and to a heading if it names one.
fn leads(repository: &Repository, file: &str, link: &str) -> bool {
    let (path, anchor) = link.split_once('#').unwrap_or((link, ""));
    let mut parts: Vec<&str> = file.split('/').collect();
    if !path.is_empty() {
        parts.pop();
    }
    for part in path.split('/') {
        match part {
            "" | "." => {}
            ".." if parts.pop().is_none() => return false,
            ".." => {}
            _ => parts.push(part),
        }
    }
    let target = parts.join("/");
    let headings = prose(repository.text(&target)).into_iter();
    let mut anchors = headings.filter_map(|(_, line)| anchor_of(line));
    !link.is_empty()
        && repository.has(&target)
        && (anchor.is_empty() || anchors.any(|found| found == anchor))
}

/// The anchor of a heading.
fn anchor_of(line: &str) -> Option<String> {
    let text = line.strip_prefix('#')?.trim_start_matches('#').trim();
    let kept = |c: &char| c.is_alphanumeric() || " -_".contains(*c);
    let text = text.to_lowercase();
    let anchor: String = text.chars().filter(kept).collect();
    Some(anchor.replace(' ', "-"))
}

#[cfg(test)]
mod tests {
    use super::*;

    fn found(text: &str) -> Vec<String> {
        crate::printed(check(&Repository::of(&[
            ("docs/A.md", text),
            ("README.md", "# Aberulwy\n\n## What, and why?\n"),
            ("docs/B.md", "## Plans\n```\n## Not a heading\n```\n"),
        ])))
    }

    #[test]
    fn links_that_lead_somewhere() {
        let text = "# One\n[a](B.md) [b](../README.md#what-and-why), [c](#one) [d](../docs/)\n\
            [`e`](B.md#plans) [f](https://example.org/x) `[g](H.md)`\n```\n[h](I.md)\n```\n";
        assert_eq!(found(text), Vec::<String>::new());
    }

    #[test]
    fn links_that_lead_nowhere() {
        for link in "C.md README.md  ../../x B.md#terms B.md#not-a-heading #one".split(' ') {
            let wanted = format!("docs/A.md:2: the link {link} leads nowhere");
            assert_eq!(found(&format!("x\n[a]({link})")), [wanted]);
        }
    }
}
