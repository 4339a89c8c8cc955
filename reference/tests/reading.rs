//! Plans in infix signs and their paths, by the module and by the program `orders`.

mod programs;

use reference::plans::{counts, Counts};
use reference::random::plans::{any_plan, basic_plan, small_plan};
use reference::random::Random;
use reference::reading::{infix, paths_of, reading, Path};
use std::process::Output;

const CRUSTED_COIN: &str = include_str!("../../examples/bench/crusted-coin.txt");
const CRUSTED_COIN_READ: &str = "\
6·(12·(9·13·3 + 13·(9·3 + 3·9)) + 13·3·12·9) + 13·(6·3·12·9 + 3·6·12·9)
6 12 9 13 3
6 12 13 9 3
6 12 13 3 9
6 13 3 12 9
13 6 3 12 9
13 3 6 12 9
";

/// The infix line of these words.
fn line(words: &str) -> String {
    let text = reading(words).unwrap();
    text.lines().next().unwrap().to_string()
}

/// The complaint about a text.
fn complaint(text: &str) -> String {
    reading(text).unwrap_err().to_string()
}

/// Runs the program on a text.
fn run(text: &[u8]) -> Output {
    programs::run(env!("CARGO_BIN_EXE_orders"), text)
}

/// Reads infix signs back into words: sums group to the left, sequences to the right, and the
/// signs between take one operand on each side.
struct Reader<'t> {
    rest: std::iter::Peekable<std::str::Chars<'t>>,
}

impl Reader<'_> {
    fn sum(&mut self) -> Option<Vec<u8>> {
        let mut read = self.merge()?;
        while self.rest.next_if_eq(&'+').is_some() {
            read.extend(self.merge()?);
            read.push(64);
        }
        Some(read)
    }

    fn merge(&mut self) -> Option<Vec<u8>> {
        let mut read = self.sequence()?;
        if let Some(sign) = self.rest.next_if(|&c| "‖⌊|◁".contains(c)) {
            read.extend(self.sequence()?);
            read.push(66 + "‖⌊|◁".chars().position(|c| c == sign)? as u8);
        }
        Some(read)
    }

    fn sequence(&mut self) -> Option<Vec<u8>> {
        let mut read = self.unit()?;
        if self.rest.next_if_eq(&'·').is_some() {
            read.extend(self.sequence()?);
            read.push(65);
        }
        Some(read)
    }

    fn unit(&mut self) -> Option<Vec<u8>> {
        match self.rest.next()? {
            '(' => {
                let inner = self.sum()?;
                self.rest.next_if_eq(&')').map(|_| inner)
            }
            'θ' => Some([self.unit()?, vec![70]].concat()),
            '∂' => {
                let set = self.number(0);
                Some([self.unit()?, vec![80 + set]].concat())
            }
            'δ' => Some(vec![0]),
            digit => Some(vec![self.number(digit.to_digit(10)? as u8)]),
        }
    }

    /// The number whose first digits have this value.
    fn number(&mut self, mut value: u8) -> u8 {
        while let Some(digit) = self.rest.next_if(char::is_ascii_digit) {
            value = 10 * value + (digit as u8 - b'0');
        }
        value
    }
}

/// The words of a plan in infix signs; none where these are not a plan.
fn words(infix: &str) -> Option<Vec<u8>> {
    let close: String = infix.chars().filter(|c| !c.is_whitespace()).collect();
    let rest = close.chars().peekable();
    let mut reader = Reader { rest };
    let read = reader.sum()?;
    reader.rest.next().is_none().then_some(read)
}

/// The paths of a basic plan, with 0 at the end of a stuck one, gathered word by word.
fn gathered(plan: &[u8]) -> Vec<Vec<u8>> {
    let mut waiting: Vec<Vec<Vec<u8>>> = Vec::new();
    for &word in plan {
        let last = waiting.len().saturating_sub(2);
        let paths = match (word, &waiting[last..]) {
            (64, [x, y]) => [&x[..], y].concat(),
            (65, [a, x]) => x.iter().map(|path| [&a[0][..], path].concat()).collect(),
            _ => {
                waiting.push(vec![vec![word]]);
                continue;
            }
        };
        waiting.truncate(last);
        waiting.push(paths);
    }
    waiting.remove(0)
}

#[test]
fn tray_1() {
    let read = "1·2 + 2·1 + 3\n1 2\n2 1\n3\n";
    assert_eq!(reading("1 2 65 2 1 65 64 3 64").unwrap(), read);
    let listing = include_str!("../../examples/trays/tray-1.txt");
    assert_eq!(reading(listing).unwrap(), read);
}

#[test]
fn crusted_coin() {
    assert_eq!(reading(CRUSTED_COIN).unwrap(), CRUSTED_COIN_READ);
    // The lines of steps may be missing.
    let cut: Vec<&str> = CRUSTED_COIN.lines().take(2).collect();
    assert_eq!(reading(&cut.join("\n")).unwrap(), CRUSTED_COIN_READ);
    // The table of examples/README.md has the same orders in a row.
    let readme = include_str!("../../examples/README.md");
    let row = readme
        .lines()
        .find(|line| line.starts_with("| `crusted-coin` "));
    let listed = row.unwrap().split('|').nth(3).unwrap().split(';');
    let listed: Vec<&str> = listed.map(str::trim).collect();
    let orders: Vec<&str> = CRUSTED_COIN_READ.lines().skip(1).collect();
    assert_eq!(listed, orders);
}

#[test]
fn the_plan_of_the_crusted_coin() {
    let text = include_str!("../../examples/bench/crusted-coin.description");
    let plan = text.lines().find_map(|line| line.strip_prefix("plan "));
    assert_eq!(
        line(plan.unwrap()),
        "θ(∂3(∂2(∂1(∂0((2 ‖ 5·11·8) ‖ 4) ‖ 7) ‖ 10) ‖ 13·1))"
    );
}

#[test]
fn every_sign() {
    assert_eq!(line("1 2 64"), "1 + 2");
    assert_eq!(line("1 2 65"), "1·2");
    assert_eq!(line("1 2 66"), "1 ‖ 2");
    assert_eq!(line("1 2 67"), "1 ⌊ 2");
    assert_eq!(line("1 2 68"), "1 | 2");
    assert_eq!(line("1 2 69"), "1 ◁ 2");
    assert_eq!(line("1 70"), "θ(1)");
    for set in 0..8 {
        assert_eq!(line(&format!("31 {}", 80 + set)), format!("∂{set}(31)"));
    }
    let signs = "1 δ + 2 · 3 || 4 |_ 5 | 6 <| theta d0";
    assert_eq!(line(signs), "∂0(θ(((((1 + δ)·2 ‖ 3) ⌊ 4) | 5) ◁ 6))");
}

#[test]
fn sequence_binds_closest() {
    for sign in ["‖", "⌊", "|", "◁", "+"] {
        let bare = format!("1·2 {sign} 3·4");
        assert_eq!(line(&format!("1 2 65 3 4 65 {sign}")), bare);
        let left = format!("(1 {sign} 2)·3");
        assert_eq!(line(&format!("1 2 {sign} 3 65")), left);
        let right = format!("1·(2 {sign} 3)");
        assert_eq!(line(&format!("1 2 3 {sign} 65")), right);
    }
}

#[test]
fn sums_bind_least() {
    for sign in ["‖", "⌊", "|", "◁"] {
        let bare = format!("1 {sign} 2 + 3 {sign} 4");
        assert_eq!(line(&format!("1 2 {sign} 3 4 {sign} +")), bare);
        let brackets = format!("(1 + 2) {sign} (3 + 4)");
        assert_eq!(line(&format!("1 2 + 3 4 + {sign}")), brackets);
    }
}

#[test]
fn groupings() {
    assert_eq!(line("1 2 + 3 +"), "1 + 2 + 3");
    assert_eq!(line("1 2 3 + +"), "1 + (2 + 3)");
    assert_eq!(line("1 2 3 · ·"), "1·2·3");
    assert_eq!(line("1 2 · 3 ·"), "(1·2)·3");
    for one in ["‖", "⌊", "|", "◁"] {
        for two in ["‖", "⌊", "|", "◁"] {
            let left = format!("(1 {one} 2) {two} 3");
            assert_eq!(line(&format!("1 2 {one} 3 {two}")), left);
            let right = format!("1 {two} (2 {one} 3)");
            assert_eq!(line(&format!("1 2 3 {one} {two}")), right);
        }
    }
    assert_eq!(line("1 2 + θ 3 ∂7 ·"), "θ(1 + 2)·∂7(3)");
}

#[test]
fn dead_stop() {
    assert_eq!(reading("0").unwrap(), "δ\nδ (stuck)\n");
    assert_eq!(reading("3 0 65").unwrap(), "3·δ\n3 δ (stuck)\n");
    let read = "1·(2·δ + 3)\n1 2 δ (stuck)\n1 3\n";
    assert_eq!(reading("1 2 0 65 3 64 65").unwrap(), read);
    let listing = "end 0 steps 0 size 7 orders 1 stuck 1\n1 2 0 65 3 64 65\n";
    assert_eq!(reading(listing).unwrap(), read);
    let listing = include_str!("../../examples/trays/tray-6-dead-stop.txt");
    assert_eq!(reading(listing).unwrap(), "δ\nδ (stuck)\n");
}

#[test]
fn plans_that_are_not_basic() {
    let told = |infix: &str| format!("{infix}\nnot basic: no orders, none stuck\n");
    assert_eq!(reading("1 2 66 80").unwrap(), told("∂0(1 ‖ 2)"));
    assert_eq!(reading("1 2 65 3 65").unwrap(), told("(1·2)·3"));
    assert_eq!(reading("1 0 64").unwrap(), told("1 + δ"));
    let stopped = include_str!("../../examples/stopped/36-too-long.txt");
    let read = reading(stopped).unwrap();
    assert!(read.starts_with("(1·2 + 2·1 + 3) ‖ (3 + 3 + 3"));
    assert!(read.ends_with("\nnot basic: no orders, none stuck\n"));
}

#[test]
fn infix_signs_tell_the_plan() {
    let mut random = Random::new(1);
    for _ in 0..4000 {
        let most = random.pick(&[5, 9, 60]);
        let plan = small_plan(&mut random, 31, most);
        assert_eq!(words(&infix(&plan)), Some(plan));
    }
}

#[test]
fn brackets_only_where_needed() {
    let mut random = Random::new(2);
    for _ in 0..1000 {
        let plan = small_plan(&mut random, 31, 14);
        let text: Vec<char> = infix(&plan).chars().collect();
        for (open, _) in text.iter().enumerate().filter(|(_, c)| **c == '(') {
            if open > 0 && (text[open - 1] == 'θ' || text[open - 1].is_ascii_digit()) {
                continue;
            }
            let mut depth = 0;
            let inside = |c: &&char| {
                depth += (**c == '(') as i32 - (**c == ')') as i32;
                depth > 0
            };
            let close = open + text[open..].iter().take_while(inside).count();
            let kept = text.iter().enumerate();
            let kept = kept.filter(|(at, _)| *at != open && *at != close);
            let bare: String = kept.map(|(_, c)| c).collect();
            assert_ne!(words(&bare).as_ref(), Some(&plan), "{}", infix(&plan));
        }
    }
}

#[test]
fn as_many_paths_as_are_counted() {
    let listed = |paths: &[Path]| {
        let stuck = paths.iter().filter(|path| path.stuck).count();
        let orders = paths.len() - stuck;
        Counts { orders, stuck }
    };
    let mut random = Random::new(3);
    for _ in 0..2000 {
        let paths = random.between(1, 30);
        let plan = basic_plan(&mut random, 31, paths);
        let found = paths_of(&plan);
        assert_eq!(listed(&found), counts(&plan));
        let end = |path: Path| [path.actions, vec![0; path.stuck as usize]].concat();
        let found: Vec<Vec<u8>> = found.into_iter().map(end).collect();
        assert_eq!(found, gathered(&plan));
        let plan = any_plan(&mut random, 31);
        assert_eq!(listed(&paths_of(&plan)), counts(&plan));
    }
}

#[test]
fn deep_plans() {
    let text = |plan: &[u8]| {
        let words: Vec<String> = plan.iter().map(u8::to_string).collect();
        reading(&words.join(" ")).unwrap()
    };
    let repeated = |sign: u8| [vec![1], [1, sign].repeat(8191)].concat();
    let mut deep = vec![1];
    deep.resize(16_384, 70);
    let brackets = |open: &str, count| open.repeat(count) + "1" + &")".repeat(count);
    let told = "\nnot basic: no orders, none stuck\n";
    assert_eq!(text(&deep), brackets("θ(", 16_383) + told);
    let sum = "1".to_string() + &" + 1".repeat(8191) + "\n" + &"1\n".repeat(8192);
    assert_eq!(text(&repeated(64)), sum);
    let left = "(".repeat(8190) + "1·1" + &")·1".repeat(8190) + told;
    assert_eq!(text(&repeated(65)), left);
    let mut chain = vec![1; 8192];
    chain.resize(16_383, 65);
    let row = |between: &str| "1".to_string() + &format!("{between}1").repeat(8191) + "\n";
    assert_eq!(text(&chain), row("·") + &row(" "));
}

#[test]
fn many_long_paths() {
    let ones = vec![1; 4000];
    let sum = [vec![2], [2, 64].repeat(3999)].concat();
    let plan = [ones, sum, vec![65; 4000]].concat();
    let paths = paths_of(&plan);
    assert_eq!(paths.len(), 4000);
    let right = |path: &Path| path.actions.len() == 4001 && !path.stuck;
    assert!(paths.iter().all(right));
}

#[test]
fn texts_that_tell_no_plan() {
    let refused = include_str!("../../examples/refused/52-sum.txt");
    let none = "expected a plan; a refused file has none";
    let head = "`end E steps S size Z orders O stuck K`";
    let below = |numbers: &str| format!("expected `{numbers}`, as the plan below has them");
    let long = "1 ".repeat(16_385);
    let cases = [
        (refused, format!("line 1: refused 52 0\n{none}")),
        ("end 0", format!("line 1: end 0\nexpected {head}")),
        // A first line as it was before stuck paths were counted apart.
        (
            "end 0 steps 0 size 1 orders 1\n1",
            format!("line 1: end 0 steps 0 size 1 orders 1\nexpected {head}"),
        ),
        (
            "end 0 steps 0 size 1 stuck 1 orders 0\n0",
            format!("line 1: end 0 steps 0 size 1 stuck 1 orders 0\nexpected {head}"),
        ),
        ("", "expected a plan of 1 to 16384 words, not of 0".into()),
        (
            &long,
            "expected a plan of 1 to 16384 words, not of 16385".into(),
        ),
        (
            "end 0 steps 0 size 1 orders 1 stuck 0",
            "expected a plan of 1 to 16384 words, not of 0".into(),
        ),
        (
            "end 0 steps 4 size 9 orders 3 stuck 0\n1 2 65 2 1 65 64",
            "line 1: end 0 steps 4 size 9 orders 3 stuck 0\n".to_string()
                + &below("size 7 orders 2 stuck 0"),
        ),
        (
            "end 0 steps 0 size 3 orders 1 stuck 0\n1 2 66",
            "line 1: end 0 steps 0 size 3 orders 1 stuck 0\n".to_string()
                + &below("size 3 orders 0 stuck 0"),
        ),
        (
            "end 0 steps 0 size 1 orders 1 stuck 0\n0",
            "line 1: end 0 steps 0 size 1 orders 1 stuck 0\n".to_string()
                + &below("size 1 orders 0 stuck 1"),
        ),
        (
            "end 0 steps 0 size 5 orders 1 stuck 0\n1 0 65 2 64",
            "line 1: end 0 steps 0 size 5 orders 1 stuck 0\n".to_string()
                + &below("size 5 orders 1 stuck 1"),
        ),
        (
            "1 2 &",
            "expected a word of a plan (0 to 255, or a sign), not `&`".into(),
        ),
        (
            "plan 1",
            "expected a word of a plan (0 to 255, or a sign), not `plan`".into(),
        ),
        (
            "1 32 65",
            "expected an action, 0 to 31, or a sign at place 1, not 32".into(),
        ),
        (
            "1 2 255",
            "expected an action, 0 to 31, or a sign at place 2, not 255".into(),
        ),
        ("1 66", "expected more operands before 66 at place 1".into()),
        (
            "1 2",
            "expected one plan, and more than one is left over".into(),
        ),
    ];
    for (text, told) in cases {
        assert_eq!(complaint(text), told);
    }
}

#[test]
fn the_program_prints_them() {
    let output = run(CRUSTED_COIN.as_bytes());
    assert!(output.status.success());
    assert_eq!(output.stdout, CRUSTED_COIN_READ.as_bytes());
    assert_eq!(output.stderr, b"");
}

#[test]
fn the_program_complains() {
    for (text, told) in [
        (
            &b"refused 13 1\n"[..],
            "line 1: refused 13 1\nexpected a plan; a refused file has none\n",
        ),
        (b"", "expected a plan of 1 to 16384 words, not of 0\n"),
        (
            b"\xff",
            "expected a word of a plan (0 to 255, or a sign), not `\u{fffd}`\n",
        ),
    ] {
        let output = run(text);
        assert_eq!(output.status.code(), Some(1));
        assert_eq!(output.stdout, b"");
        assert_eq!(String::from_utf8(output.stderr).unwrap(), told);
    }
}
