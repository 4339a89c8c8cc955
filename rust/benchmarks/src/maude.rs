//! Maude: laws 5 to 32 as equations, reduced by the command `maude` where it is installed.
//!
//! Laws 10, 20, 21, 24 and 25 are written out for each action, so that an equation used is a
//! step made. Maude reduces operands before the sign above them, as the unfolding does.
//!
//! Maude tells the time that a reduction took from a clock that may tick only every 4 ms, longer
//! than most plans take. So one reduction reduces a plan many times, anew each time: an equation
//! more, used once for each time, puts the plan in.

use crate::workloads::Unfolding;
use reference::plans::{
    operands, CHOICE, COMMUNICATION_MERGE, ENCAPSULATION, LEFT_MERGE, MERGE, PRODUCT, THETA, UNLESS,
};
use reference::tables::{actions, below, blocked, communication};
use std::process::{Command, Stdio};
use std::{env, fs, io, process};

/// How often all is reduced; the least time counts.
const TIMES: usize = 5;
/// About how many equations are used each time.
const REWRITES: usize = 8_000_000;
/// The least time that counts, in nanoseconds: many ticks of the clock.
const LEAST: f64 = 100e6;
/// The sets for which encapsulation is written out.
const SETS: u8 = 8;

/// The laws without conditions and table entries.
const LAWS: [(u8, &str, &str); 21] = [
    (5, "seq(alt(X, Y), Z)", "alt(seq(X, Z), seq(Y, Z))"),
    (6, "seq(seq(X, Y), Z)", "seq(X, seq(Y, Z))"),
    (7, "alt(X, a0)", "X"),
    (8, "alt(a0, X)", "X"),
    (9, "seq(a0, X)", "a0"),
    (11, "mrg(X, Y)", "alt(alt(lmg(X, Y), lmg(Y, X)), com(X, Y))"),
    (12, "lmg(A, X)", "seq(A, X)"),
    (13, "lmg(seq(A, X), Y)", "seq(A, mrg(X, Y))"),
    (14, "lmg(alt(X, Y), Z)", "alt(lmg(X, Z), lmg(Y, Z))"),
    (15, "com(seq(A, X), B)", "seq(com(A, B), X)"),
    (16, "com(A, seq(B, X))", "seq(com(A, B), X)"),
    (17, "com(seq(A, X), seq(B, Y))", "seq(com(A, B), mrg(X, Y))"),
    (18, "com(alt(X, Y), Z)", "alt(com(X, Z), com(Y, Z))"),
    (19, "com(X, alt(Y, Z))", "alt(com(X, Y), com(X, Z))"),
    (26, "unl(X, seq(Y, Z))", "unl(X, Y)"),
    (27, "unl(X, alt(Y, Z))", "unl(unl(X, Y), Z)"),
    (28, "unl(seq(X, Y), Z)", "seq(unl(X, Z), Y)"),
    (29, "unl(alt(X, Y), Z)", "alt(unl(X, Z), unl(Y, Z))"),
    (30, "pri(A)", "A"),
    (31, "pri(seq(X, Y))", "seq(pri(X), pri(Y))"),
    (32, "pri(alt(X, Y))", "alt(unl(pri(X), Y), unl(pri(Y), X))"),
];

/// The functional module for some tables.
pub fn module(tables: &[u8]) -> String {
    let n = actions(tables);
    let every =
        |of: &dyn Fn(u8) -> String, count: u8| (0..count).map(of).collect::<Vec<_>>().join(" ");
    let mut lines = vec![
        "fmod ABERULWY is".to_string(),
        "  sorts Action Plan .".to_string(),
        "  subsort Action < Plan .".to_string(),
        format!("  ops {} : -> Action [ctor] .", every(&action, n + 1)),
        "  ops alt seq mrg lmg com unl : Plan Plan -> Plan .".to_string(),
        "  op pri : Plan -> Plan .".to_string(),
        format!("  ops {} : Plan -> Plan .", every(&encapsulation, SETS)),
        "  vars X Y Z : Plan .".to_string(),
        "  vars A B : Action .".to_string(),
    ];
    let mut laws: Vec<(u8, String)> = LAWS
        .iter()
        .map(|(law, left, right)| (*law, format!("{left} = {right}")))
        .collect();
    laws.extend(laws_of_pairs(tables));
    laws.extend(laws_of_sets(tables));
    laws.sort_by_key(|(law, _)| *law);
    lines.extend(
        laws.iter()
            .map(|(law, equation)| format!("  eq {equation} . *** {law}")),
    );
    lines.push("endfm".to_string());
    lines.join("\n") + "\n"
}

fn action(a: u8) -> String {
    format!("a{a}")
}

fn encapsulation(set: u8) -> String {
    format!("enc{set}")
}

/// Laws 10, 24 and 25 for each pair of actions.
fn laws_of_pairs(tables: &[u8]) -> Vec<(u8, String)> {
    let n = actions(tables);
    let mut laws = Vec::new();
    for (a, b) in (0..=n).flat_map(|a| (0..=n).map(move |b| (a, b))) {
        let together = communication(tables, a, b);
        laws.push((10, format!("com(a{a}, a{b}) = a{together}")));
        laws.push(match below(tables, a, b) {
            false => (24, format!("unl(a{a}, a{b}) = a{a}")),
            true => (25, format!("unl(a{a}, a{b}) = a0")),
        });
    }
    laws
}

/// Laws 20 to 23 for each set.
fn laws_of_sets(tables: &[u8]) -> Vec<(u8, String)> {
    let mut laws = Vec::new();
    for set in 0..SETS {
        let enc = encapsulation(set);
        for a in 0..=actions(tables) {
            laws.push(match blocked(tables, set, a) {
                false => (20, format!("{enc}(a{a}) = a{a}")),
                true => (21, format!("{enc}(a{a}) = a0")),
            });
        }
        for (law, sign) in [(22, "alt"), (23, "seq")] {
            laws.push((
                law,
                format!("{enc}({sign}(X, Y)) = {sign}({enc}(X), {enc}(Y))"),
            ));
        }
    }
    laws
}

/// An accepted plan as a term of the module.
pub fn term(plan: &[u8]) -> String {
    let missing = "an accepted plan has the operands";
    let mut waiting: Vec<String> = Vec::new();
    for &word in plan {
        let read = match operands(word) {
            0 => action(word),
            1 => format!("{}({})", sign(word), waiting.pop().expect(missing)),
            _ => {
                let y = waiting.pop().expect(missing);
                let x = waiting.pop().expect(missing);
                format!("{}({x}, {y})", sign(word))
            }
        };
        waiting.push(read);
    }
    waiting.pop().expect("an accepted plan is not empty")
}

fn sign(word: u8) -> String {
    match word {
        CHOICE => "alt".to_string(),
        PRODUCT => "seq".to_string(),
        MERGE => "mrg".to_string(),
        LEFT_MERGE => "lmg".to_string(),
        COMMUNICATION_MERGE => "com".to_string(),
        UNLESS => "unl".to_string(),
        THETA => "pri".to_string(),
        _ => encapsulation(word - ENCAPSULATION),
    }
}

/// Whether the command is installed.
pub fn installed() -> bool {
    let mut command = Command::new("maude");
    command.arg("--version").stdin(Stdio::null());
    command.output().is_ok_and(|output| output.status.success())
}

/// What it takes Maude to reduce a plan.
#[derive(Clone, Copy, Debug, PartialEq)]
pub struct Reduced {
    /// How many equations are used.
    pub rewrites: usize,
    /// The time in nanoseconds; none where it was too short for Maude's clock.
    pub time: Option<f64>,
}

/// The module that reduces a plan as many times as asked.
fn runs(plan: &[u8]) -> String {
    [
        "fmod RUNS is",
        "  protecting NAT .",
        "  protecting ABERULWY .",
        "  sort Runs .",
        "  op runs : Nat Plan -> Runs .",
        "  var N : Nat .",
        "  var X : Plan .",
        &format!("  eq runs(s N, X) = runs(N, {}) .", term(plan)),
        "endfm\n",
    ]
    .join("\n")
}

/// Reduces the plan of an unfolding many times; none where Maude reports nothing, or reaches
/// another plan.
pub fn reduce(unfolding: &Unfolding) -> io::Result<Option<Reduced>> {
    let times = (REWRITES / unfolding.steps).max(1);
    let command = format!("red in RUNS : runs({times}, a0) .\n");
    let modules = module(&unfolding.tables) + &runs(&unfolding.plan);
    let text = modules + &command.repeat(TIMES) + "quit .\n";
    let file = env::temp_dir().join(format!("aberulwy-{}.maude", process::id()));
    fs::write(&file, text)?;
    let output = Command::new("maude")
        .args(["-no-banner", "-no-advise", "-no-wrap"])
        .arg(&file)
        .stdin(Stdio::null())
        .output();
    fs::remove_file(&file)?;
    let output = output?;
    let report = String::from_utf8_lossy(&output.stdout);
    let reached = format!("runs(0, {})", term(&unfolding.reached));
    let same = report.matches(&reached).count() == TIMES;
    Ok(least(&report, times).filter(|_| same))
}

/// The least that is reported, for one of so many times.
fn least(report: &str, times: usize) -> Option<Reduced> {
    let reports: Vec<_> = report.lines().filter_map(reported).collect();
    let time = |&(_, time): &(usize, Option<f64>)| time.filter(|&time| time >= LEAST);
    let every: Option<Vec<f64>> = reports.iter().map(time).collect();
    let least = every.and_then(|every| every.into_iter().reduce(f64::min));
    let &(rewrites, _) = reports.first()?;
    Some(Reduced {
        rewrites: rewrites / times - 1,
        time: least.map(|time| time / times as f64),
    })
}

/// Reads `rewrites: N in Ams cpu (Bms real) (R rewrites/second)`: N, and the nanoseconds. N over
/// R is finer than A; R is `~` where there is none.
fn reported(line: &str) -> Option<(usize, Option<f64>)> {
    let rest = line.trim().strip_prefix("rewrites: ")?;
    let rewrites: usize = rest.split_whitespace().next()?.parse().ok()?;
    let rate = rest.strip_suffix(" rewrites/second)")?.rsplit('(').next()?;
    let rate = rate.parse().ok().filter(|&rate: &f64| rate > 0.0);
    Some((rewrites, rate.map(|rate| 1e9 * rewrites as f64 / rate)))
}

#[cfg(test)]
mod tests {
    use super::*;
    use reference::laws::SIDES;
    use reference::tables::trial_tables;

    #[test]
    fn reports_are_read() {
        let line = "rewrites: 4200 in 200ms cpu (230ms real) (21000 rewrites/second)";
        assert_eq!(reported(line), Some((4200, Some(200e6))));
        let quick = "rewrites: 4200 in 0ms cpu (0ms real) (~ rewrites/second)";
        assert_eq!(reported(quick), Some((4200, None)));
        assert_eq!(reported("result Runs: runs(0, a3)"), None);
        let slower = "rewrites: 4200 in 400ms cpu (430ms real) (10500 rewrites/second)";
        let all = [slower, line, slower].join("\n");
        let (rewrites, time) = (41, Some(2e6));
        assert_eq!(least(&all, 100), Some(Reduced { rewrites, time }));
        let one_too_quick = [line, quick].join("\n");
        let time = None;
        assert_eq!(least(&one_too_quick, 100), Some(Reduced { rewrites, time }));
        assert_eq!(least("", 100), None);
    }

    #[test]
    fn plan_is_put_in_many_times() {
        let runs = runs(&[1, 2, 65]);
        assert!(runs.contains("eq runs(s N, X) = runs(N, seq(a1, a2)) ."));
    }

    #[test]
    fn terms() {
        assert_eq!(
            term(&[1, 2, 65, 3, 66, 80, 70]),
            "pri(enc0(mrg(seq(a1, a2), a3)))"
        );
    }

    /// The postfix signs of the reference's laws, as Maude's.
    fn side(postfix: &str) -> String {
        let mut waiting: Vec<String> = Vec::new();
        for letter in postfix.chars() {
            let two = match letter {
                '+' => "alt",
                '·' => "seq",
                '‖' => "mrg",
                '⌊' => "lmg",
                '|' => "com",
                '◁' => "unl",
                'θ' => "pri",
                'δ' => "a0",
                _ => "",
            };
            let read = match letter {
                'θ' => format!("pri({})", waiting.pop().unwrap()),
                'δ' => two.to_string(),
                _ if two.is_empty() => letter.to_uppercase().to_string(),
                _ => {
                    let y = waiting.pop().unwrap();
                    let x = waiting.pop().unwrap();
                    format!("{two}({x}, {y})")
                }
            };
            waiting.push(read);
        }
        waiting.pop().unwrap()
    }

    #[test]
    fn laws_are_those_of_the_reference() {
        for (law, left, right) in LAWS {
            let (reference_left, reference_right, _) = SIDES[law as usize - 1];
            assert_eq!(left, side(reference_left), "law {law}");
            assert_eq!(right, side(reference_right), "law {law}");
        }
    }

    #[test]
    fn module_has_every_law() {
        let module = module(&trial_tables());
        for law in 5..=32 {
            assert!(module.contains(&format!(" . *** {law}\n")), "law {law}");
        }
        for equation in [
            "eq com(a1, a2) = a3 .",
            "eq unl(a1, a4) = a0 .",
            "eq unl(a4, a1) = a4 .",
            "eq enc0(a1) = a0 .",
            "eq enc1(a1) = a1 .",
            "eq enc7(seq(X, Y)) = seq(enc7(X), enc7(Y)) .",
        ] {
            assert!(module.contains(equation), "{equation}");
        }
        assert!(module.contains("ops a0 a1 a2 a3 a4 : -> Action [ctor] ."));
    }
}
