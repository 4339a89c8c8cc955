//! Station files from descriptions, by the module and by the program `station`.

mod programs;

use reference::descriptions::{station, MOST_WORDS};
use reference::stations::{program, read_station, BLOCK};
use reference::tables::TABLES_LENGTH;
use std::process::Output;

const TRAY_1: &str = "
# The first trial tray.
actions 4
1 | 2 = 3       # 1 and 2 together are seen as 3
1 < 4
set 0 = 1 2
plan 1 2 66
";

/// The bench with a hasty hub and a crusted coin.
const CRUSTED_COIN: &str = include_str!("../../examples/bench/crusted-coin.description");

/// The bench with the hub that waits, its plan typed in signs.
const HUB_WAITS: &str = include_str!("../../examples/bench/crusted-coin-hub-waits.description");

/// The plan of a described station file.
fn plan(words: &str) -> Vec<u8> {
    let file = station(&format!("actions 31\nplan {words}")).unwrap();
    file[5 * BLOCK + 6..][..file[5 * BLOCK + 4] as usize].to_vec()
}

/// The complaint about a text.
fn complaint(text: &str) -> String {
    station(text).unwrap_err().to_string()
}

/// Runs the program on a text.
fn run(text: &[u8]) -> Output {
    programs::run(env!("CARGO_BIN_EXE_station"), text)
}

#[test]
fn tray_1_byte_for_byte() {
    let stored = include_bytes!("../../examples/trays/tray-1.station");
    assert_eq!(station(TRAY_1).unwrap(), stored);
}

#[test]
fn crusted_coin_byte_for_byte() {
    let stored = include_bytes!("../../examples/bench/crusted-coin.station");
    assert_eq!(station(CRUSTED_COIN).unwrap(), stored);
    let stored = include_bytes!("../../examples/bench/crusted-coin-hub-waits.station");
    assert_eq!(station(HUB_WAITS).unwrap(), stored);
}

#[test]
fn order_and_blanks_are_free() {
    let text = "\tplan  1 2  ||#merged\r\n set 0=2 1\r\n1<4\n\n2|1=3\n  actions 4";
    assert_eq!(station(text), station(TRAY_1));
}

#[test]
fn a_later_line_holds() {
    assert_eq!(station(&format!("1 | 2 = 4{TRAY_1}")), station(TRAY_1));
}

#[test]
fn lines_of_a_set_add_up() {
    let halves = TRAY_1.replace("set 0 = 1 2", "set 0 = 2\nset 0 =\nset 0 = 1");
    assert_eq!(station(&halves), station(TRAY_1));
}

#[test]
fn words_are_numbers_or_signs() {
    assert_eq!(plan("0 31 64 255"), [0, 31, 64, 255]);
    assert_eq!(plan("δ + · ‖ ⌊ | ◁ θ"), [0, 64, 65, 66, 67, 68, 69, 70]);
    assert_eq!(plan(". || |_ <| theta"), [65, 66, 67, 69, 70]);
    let sets = [80, 81, 82, 83, 84, 85, 86, 87];
    assert_eq!(plan("∂0 ∂1 ∂2 ∂3 ∂4 ∂5 ∂6 ∂7"), sets);
    assert_eq!(plan("d0 d1 d2 d3 d4 d5 d6 d7"), sets);
}

#[test]
fn nothing_else_is_judged() {
    let listed = |text: &str| program(&station(text).unwrap());
    assert_eq!(listed("actions 4\nplan 1 66"), "refused 13 1\n");
    assert_eq!(listed("actions 4\nplan 5"), "refused 12 0\n");
    assert_eq!(listed("actions 4\nset 0 = 0\nplan 1"), "refused 3 2049\n");
    assert_eq!(listed("actions 4\n1 < 1\nplan 1"), "refused 8 1024\n");
}

#[test]
fn an_order_is_not_closed_by_itself() {
    let listed = |lines: &str| program(&station(&format!("actions 3\n{lines}\nplan 1")).unwrap());
    assert_eq!(listed("1 < 2\n2 < 3"), "refused 8 1091\n");
    let closed = "end 0 steps 0 size 1 orders 1 stuck 0\n1\n";
    assert_eq!(listed("1 < 2\n2 < 3\n1 < 3"), closed);
}

#[test]
fn a_line_that_is_none() {
    let expected =
        "expected `actions N`, `A | B = C`, `A < B`, `set H = A B …`, `plan W W …` or `text S`";
    let unknown = [
        "action 4",
        "actions",
        "actions 4 5",
        "actions = 4",
        "1 | 2",
        "1 | 2 3",
        "1 < 2 < 3",
        "1 > 2",
        "set 0 1 2",
        "set = 1 2",
        "plan: 1",
        "1 2 66",
    ];
    for line in unknown {
        let text = format!("actions 4\n\n  {line}  # what is this\nplan 1");
        let told = format!("line 3: {line}  # what is this\n{expected}");
        assert_eq!(complaint(&text), told);
    }
}

#[test]
fn numbers_out_of_range() {
    let actions = |count| format!("a count of actions, 1 to 31, not `{count}`");
    let action = |action| format!("an action, 0 to 31, not `{action}`");
    let set = |set| format!("a blocked set, 0 to 7, not `{set}`");
    let word = |word| format!("a word of a plan (0 to 255, or a sign), not `{word}`");
    let cases = [
        ("actions 0", actions("0")),
        ("actions 32", actions("32")),
        ("actions +4", actions("+4")),
        ("actions four", actions("four")),
        ("32 | 1 = 2", action("32")),
        ("1 | -1 = 2", action("-1")),
        ("1 | 2 = 32", action("32")),
        ("300 < 1", action("300")),
        ("1 < x", action("x")),
        ("set 8 = 1", set("8")),
        ("set x = 1", set("x")),
        ("set 0 = 1 32", action("32")),
        ("plan 1 256", word("256")),
        ("plan 1 2 +66", word("+66")),
        ("plan 1 2 &", word("&")),
        ("plan 1 ∂", word("∂")),
        ("plan 1 ∂8", word("∂8")),
        ("plan 1 d+0", word("d+0")),
    ];
    for (line, expected) in cases {
        assert_eq!(
            complaint(line),
            format!("line 1: {line}\nexpected {expected}")
        );
    }
}

#[test]
fn actions_and_plan_once() {
    let none = "expected a line `actions N`, and there is none";
    assert_eq!(complaint(""), none);
    assert_eq!(complaint("plan 1"), none);
    assert_eq!(
        complaint("actions 4 # plan 1"),
        "expected a line `plan W W …` or `text S`, and there is none"
    );
    assert_eq!(
        complaint("actions 4\nplan 1\nactions 4"),
        "line 3: actions 4\nexpected one line `actions N`, and this is a second one"
    );
    assert_eq!(
        complaint("actions 4\nplan 1\nplan 1"),
        "line 3: plan 1\nexpected one line `plan W W …` or `text S`, and this is a second one"
    );
}

#[test]
fn a_plan_typed_in_signs() {
    let text = |line: &str| station(&format!("{line}\nactions 4"));
    assert_eq!(
        text("  text (1 # 2)+0 "),
        station("actions 4\nplan 1 2 ‖ 0 +")
    );
    for (told, expected) in [
        (
            "(1 #2)",
            "a plan in signs, and at place 4 stands `2)` (refusal 61)",
        ),
        (
            "1+45",
            "a plan in signs, and at place 2 stands `45` (refusal 61)",
        ),
        (
            "1 ‖ 2",
            "a plan in signs, and at place 1 stands ` ‖ 2` (refusal 61)",
        ),
        (
            "1+",
            "a plan in signs, and the text ends too early (refusal 61)",
        ),
    ] {
        let line = format!("text {told}");
        assert_eq!(
            text(&line).unwrap_err().to_string(),
            format!("line 1: {line}\nexpected {expected}")
        );
    }
    assert_eq!(
        complaint("actions 4\nplan 1\ntext 1"),
        "line 3: text 1\nexpected one line `plan W W …` or `text S`, and this is a second one"
    );
    let long = vec!["1"; MOST_WORDS / 2 + 2].join("+");
    let complaint = text(&format!("text {long}")).unwrap_err();
    assert_eq!(complaint.expected, "at most 16632 words, not 16635");
}

#[test]
fn plans_without_words_and_too_long() {
    assert_eq!(
        complaint("actions 4\nplan # 1"),
        "line 2: plan # 1\nexpected a word or more behind `plan`"
    );
    let long = |words| format!("actions 4\nplan{}", " 1".repeat(words));
    let file = station(&long(MOST_WORDS)).unwrap();
    assert_eq!((MOST_WORDS, file.len()), (16_632, 38 * BLOCK));
    let (mut tables, mut plan) = (vec![0; TABLES_LENGTH], vec![0; MOST_WORDS]);
    let refusal = read_station(&file, &mut tables, &mut plan).unwrap_err();
    assert_eq!(refusal.number, 11);
    let shown = format!("line 2: plan{} …", " 1".repeat(34));
    assert_eq!(
        complaint(&long(MOST_WORDS + 1)),
        format!("{shown}\nexpected at most 16632 words, not 16633")
    );
}

#[test]
fn the_program_writes_the_file() {
    let output = run(TRAY_1.as_bytes());
    assert!(output.status.success());
    assert_eq!(output.stdout, station(TRAY_1).unwrap());
    assert_eq!(output.stderr, b"");
    // Bytes that are no text are passed over in a comment.
    assert!(run(b"actions 4 # \xff\nplan 1\n").status.success());
}

#[test]
fn the_program_complains() {
    for (text, told) in [
        (&b"actions 4\nplan 1 2 &\n"[..], "line 2: plan 1 2 &\n"),
        (b"actions 4\nplan 1 2 \xff\n", "line 2: plan 1 2 \u{fffd}\n"),
        (b"", "expected a line `actions N`, and there is none\n"),
    ] {
        let output = run(text);
        assert_eq!(output.status.code(), Some(1));
        assert_eq!(output.stdout, b"");
        let complaint = String::from_utf8(output.stderr).unwrap();
        assert!(complaint.starts_with(told), "{complaint}");
    }
}
