//! What the documents say, held against the repository.
//!
//! Each check reads a [`Repository`] and answers its [`Finding`]s: where a document says
//! something that the files do not bear out.

#![forbid(unsafe_code)]
#![warn(missing_docs)]

pub mod claims;
pub mod contracts;
mod counts;
mod declared;
pub mod formats;
pub mod links;
mod markdown;
pub mod names;
pub mod numbers;
pub mod versions;

use std::collections::BTreeMap;
use std::{fmt, fs, path::Path};

/// Something that a document says and the repository does not bear out.
#[derive(Clone, Debug, PartialEq, Eq, PartialOrd, Ord)]
pub struct Finding {
    file: String,
    line: usize,
    what: String,
}

impl Finding {
    /// A finding in a line of a file, from 1; 0 where the whole file is meant.
    pub fn new(file: &str, line: usize, what: impl Into<String>) -> Finding {
        let (file, what) = (file.to_string(), what.into());
        Finding { file, line, what }
    }
}

impl fmt::Display for Finding {
    fn fmt(&self, f: &mut fmt::Formatter<'_>) -> fmt::Result {
        write!(f, "{}:{}: {}", self.file, self.line, self.what)
    }
}

/// The folders of what is built, and of the history.
const APART: [&str; 3] = ["target", "out", ".git"];

/// The files of the repository by their paths from its root, without what is built.
#[derive(Clone, Debug, Default)]
pub struct Repository {
    files: BTreeMap<String, Vec<u8>>,
}

impl Repository {
    /// This repository.
    pub fn here() -> Repository {
        let mut repository = Repository::default();
        repository.read(&Path::new(env!("CARGO_MANIFEST_DIR")).join("../.."), "");
        repository
    }

    fn read(&mut self, folder: &Path, prefix: &str) {
        for entry in fs::read_dir(folder).expect("a folder that can be read") {
            let path = entry.expect("an entry").path();
            let name = path.file_name().unwrap_or_default().to_string_lossy();
            if path.is_dir() && !APART.contains(&name.as_ref()) {
                self.read(&path, &format!("{prefix}{name}/"));
            } else if path.is_file() {
                let bytes = fs::read(&path).expect("a file that can be read");
                self.files.insert(format!("{prefix}{name}"), bytes);
            }
        }
    }

    /// A repository of these files.
    pub fn of(files: &[(&str, &str)]) -> Repository {
        let file = |(path, text): &(&str, &str)| (path.to_string(), text.as_bytes().to_vec());
        Repository {
            files: files.iter().map(file).collect(),
        }
    }

    /// The paths of all files, in order.
    pub fn paths(&self) -> impl Iterator<Item = &str> {
        self.files.keys().map(String::as_str)
    }

    /// A file's bytes; none where there is no such file.
    pub fn bytes(&self, path: &str) -> &[u8] {
        self.files.get(path).map_or(&[], Vec::as_slice)
    }

    /// A file's text; empty where there is no such file.
    pub fn text(&self, path: &str) -> &str {
        std::str::from_utf8(self.bytes(path)).unwrap_or("")
    }

    /// Whether there is a file or a folder of this path.
    pub fn has(&self, path: &str) -> bool {
        let folder = format!("{path}/");
        path.is_empty() || self.paths().any(|p| p == path || p.starts_with(&folder))
    }

    /// Whether these parts of a path stand in a row in that of some file. NAME and `*` stand for
    /// anything, and `.antt` may be left out.
    pub fn has_part(&self, path: &str) -> bool {
        let wanted: Vec<&str> = path.trim_end_matches('/').split('/').collect();
        let fits = |(part, wanted): (&&str, &&str)| match wanted.strip_prefix('*') {
            Some(end) => part.ends_with(end),
            None => {
                *wanted == "NAME" || part == wanted || part.strip_suffix(".antt") == Some(wanted)
            }
        };
        self.paths().any(|file| {
            let parts: Vec<&str> = file.split('/').collect();
            let mut runs = parts.windows(wanted.len());
            runs.any(|run| run.iter().zip(&wanted).all(fits))
        })
    }
}

#[cfg(test)]
pub(crate) fn printed(findings: Vec<Finding>) -> Vec<String> {
    findings.iter().map(Finding::to_string).collect()
}
