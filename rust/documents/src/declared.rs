//! What the sources declare. Lines are read one by one; nothing is parsed.

use std::collections::{BTreeSet, HashMap, HashSet};

use crate::Repository;

/// The crates whose public functions are the public calls.
const CALLS: [&str; 3] = ["aberulwy", "aberulwy_c", "listing"];

/// Words behind which code declares a name.
const KEYWORDS: &str = "fn enum struct const static trait type mod";

/// Names by what they belong to.
type Sets = HashMap<String, HashSet<String>>;

/// Everything that is declared.
#[derive(Clone, Debug, Default)]
pub struct Declared {
    /// The crates.
    pub crates: BTreeSet<String>,
    /// The names in specs/M.antt and proofs/M.antt of a crate, by `crate M`.
    pub modules: Sets,
    /// The clauses of functions' contracts by `crate::function`, and those of the public calls
    /// by call; under no name those of all calls.
    pub clauses: Sets,
    /// The fields of the records of claims, by record; under no name those of all.
    pub records: Sets,
    /// The must-fail edits, as `crate/edit`.
    pub edits: BTreeSet<String>,
    /// Every name in crates/: also clauses, edits, crates, and paths as `crate::item`.
    pub names: HashSet<String>,
    /// The names of Rust, of C and of the kit.
    pub elsewhere: HashSet<String>,
}

impl Declared {
    /// What a repository declares.
    pub fn of(repository: &Repository) -> Declared {
        let mut all = Declared::default();
        for path in repository.paths() {
            let text = repository.text(path);
            let parts: Vec<&str> = path.split('/').collect();
            match parts[..] {
                ["crates", krate, folder, ..] => {
                    all.crates.insert(krate.to_string());
                    all.names.insert(krate.to_string());
                    let file = parts[3..].join("/");
                    if let Some(module) = file.strip_suffix(".antt") {
                        all.antt(krate, module, text);
                    } else if let Some(edit) = file.strip_suffix(".edit") {
                        let path = format!("{krate}/{edit}");
                        all.names.extend([path.clone(), edit.to_string()]);
                        all.edits.insert(path);
                    } else if folder == "src" {
                        all.rattle(krate, text);
                    }
                    for line in text.lines().filter(|line| line.contains("use ")) {
                        let words = line.split([' ', ',', '{', '}', ';']);
                        let words = words.map(|word| word.trim_end_matches('.'));
                        all.elsewhere.extend(words.map(str::to_string));
                    }
                }
                ["rust" | "reference", ..] if path.ends_with(".rs") => {
                    all.elsewhere.extend(of_code(text));
                }
                ["include", ..] => {
                    let words = text.split(|c| !is_word(c));
                    all.elsewhere.extend(words.map(str::to_string));
                }
                _ => {}
            }
        }
        all
    }

    /// The names before a colon, those of records and data types, and the fields of claims.
    fn antt(&mut self, krate: &str, module: &str, text: &str) {
        let mut record = "";
        for line in text.lines().filter(|l| !l.trim().starts_with("--")) {
            let words = line.split_whitespace();
            let words = words.skip_while(|w| ["pub", "abbrev", "unfoldable"].contains(w));
            let words: Vec<&str> = words.collect();
            let mut names = &words[..words.iter().position(|w| *w == ":").unwrap_or(0)];
            if let ["record" | "data", name, ..] = words[..] {
                (record, names) = (name, &words[1..2]);
            } else if !line.starts_with(' ') {
                record = "";
            }
            if names.concat().contains(['(', '{', '=', 'λ']) {
                continue;
            }
            for name in names {
                self.names.insert(name.to_string());
                add(&mut self.modules, &format!("{krate} {module}"), name);
                if record.ends_with("Claims") && line.starts_with(' ') {
                    add(&mut self.records, record, name);
                    add(&mut self.records, "", name);
                }
            }
        }
    }

    /// The names, the paths `a::b`, and the clauses of contracts.
    fn rattle(&mut self, krate: &str, text: &str) {
        for name in of_code(text) {
            self.names.extend([format!("{krate}::{name}"), name]);
        }
        let (mut function, mut call) = ("", false);
        for line in text.lines().filter(|l| !l.trim().starts_with("//")) {
            let words = line.split(|c| !(is_word(c) || c == ':'));
            let paths = words.filter(|word| word.contains("::"));
            self.names.extend(paths.map(str::to_string));
            if let Some((before, rest)) = line.split_once("fn ") {
                function = rest.split(|c| !is_word(c)).next().unwrap_or("");
                call = CALLS.contains(&krate) && before.starts_with("pub");
            }
            let words: Vec<&str> = line.split_whitespace().collect();
            if let ["ensures", clause, "{", ..] = words[..] {
                self.names.insert(clause.to_string());
                add(&mut self.clauses, &format!("{krate}::{function}"), clause);
                for of in [function, ""].iter().filter(|_| call) {
                    add(&mut self.clauses, of, clause);
                }
            }
        }
    }

    /// Whether a crate has such a module.
    pub fn is_module(&self, krate: &str, module: &str) -> bool {
        self.modules.contains_key(&format!("{krate} {module}"))
    }

    /// Whether one of these modules declares a name.
    pub fn in_modules(&self, krate: &str, modules: &[&str], name: &str) -> bool {
        let of = |module: &&str| self.modules.get(&format!("{krate} {module}"));
        modules.iter().filter_map(of).any(|names| has(names, name))
    }

    /// Whether a name is declared in crates/.
    pub fn in_crates(&self, name: &str) -> bool {
        has(&self.names, name)
    }

    /// Whether a call, or for no name some call, has a clause.
    pub fn is_clause(&self, call: &str, clause: &str) -> bool {
        let clauses = self.clauses.get(call);
        clauses.is_some_and(|all| all.contains(clause))
    }

    /// Whether a record of claims, or for no name some, has a field.
    pub fn is_field(&self, record: &str, field: &str) -> bool {
        let fields = self.records.get(record);
        fields.is_some_and(|all| all.contains(field))
    }
}

fn add(sets: &mut Sets, of: &str, name: &str) {
    let names = sets.entry(of.to_string()).or_default();
    names.insert(name.to_string());
}

/// Whether a name is among these; `…-end` is any name of that end.
fn has(names: &HashSet<String>, name: &str) -> bool {
    match name.strip_prefix('…') {
        Some(end) => names.iter().any(|n| n.ends_with(end)),
        None => names.contains(name),
    }
}

fn is_word(c: char) -> bool {
    c.is_alphanumeric() || c == '_'
}

/// The names behind keywords, and the first of each line of an enum or a struct.
fn of_code(text: &str) -> Vec<String> {
    let mut found = Vec::new();
    let mut within = false;
    for line in text.lines() {
        let line = line.split("//").next().unwrap_or("").trim();
        let words = line.split(|c| !is_word(c)).filter(|word| !word.is_empty());
        let words: Vec<&str> = words.filter(|word| *word != "pub").collect();
        let named = |w: &&[&str]| KEYWORDS.split(' ').any(|keyword| keyword == w[0]);
        found.extend(words.windows(2).filter(named).map(|w| w[1].to_string()));
        found.extend(words.first().filter(|_| within).map(|w| w.to_string()));
        let begins = words.contains(&"enum") || words.contains(&"struct");
        within = (within || (begins && line.ends_with('{'))) && line != "}";
    }
    found
}
