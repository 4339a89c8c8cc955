//! Plans typed in signs, through the safe calls.

use aberulwy::examples::trial_tables;
use aberulwy::*;

/// What the areas hold before.
const BEFORE: u8 = 7;
/// How many brackets may be open at once.
const DEEPEST: usize = 200;

/// Reads into an area of this length: the plan, or the number and the place of the refusal. Of
/// the area, what is behind the plan must be zero, and all must be as it was if it was refused.
fn read_in(tables: &[u8], text: &[u8], area: usize) -> Result<Vec<u8>, (u8, usize)> {
    let mut plan = vec![BEFORE; area];
    match read_text(tables, text, &mut plan) {
        Ok(size) => {
            let behind = plan.split_off(size);
            assert!(behind.iter().all(|&byte| byte == 0));
            Ok(plan)
        }
        Err(refusal) => {
            assert!(plan.iter().all(|&byte| byte == BEFORE));
            Err((refusal.number(), refusal.printed()))
        }
    }
}

/// Reads under the tables of the trial trays into an area for every plan.
fn read(text: impl AsRef<[u8]>) -> Result<Vec<u8>, (u8, usize)> {
    read_in(&trial_tables(), text.as_ref(), LONGEST_PLAN)
}

#[test]
fn texts_with_their_words() {
    assert_eq!(read("(1 # 2)"), Ok(vec![1, 2, 66]));
    assert_eq!(read("H0((1 # 2))"), Ok(vec![1, 2, 66, 80]));
    assert_eq!(read("T(1+4)"), Ok(vec![1, 4, 64, 70]));
    assert_eq!(read("1.2+2.1+3"), Ok(vec![1, 2, 65, 2, 1, 65, 64, 3, 64]));
    assert_eq!(read("(1 < 2.4)"), Ok(vec![1, 2, 4, 65, 69]));
    assert_eq!(read("(1 [ 2+3)"), Ok(vec![1, 2, 3, 64, 67]));
    assert_eq!(read("H7((0 | 4))"), Ok(vec![0, 4, 68, 87]));
    // Both signs group to the left, and brackets group otherwise.
    assert_eq!(read("1+2+3"), Ok(vec![1, 2, 64, 3, 64]));
    assert_eq!(read("1.(2.3)"), Ok(vec![1, 2, 3, 65, 65]));
    assert_eq!(read("((0))"), Ok(vec![0]));
}

#[test]
fn a_text_is_unfolded() {
    let tables = trial_tables();
    let (mut plan, mut list, mut a, mut b) = ([7; 64], [7; 300], [7; 64], [7; 64]);
    let size = read_text(&tables, b"H0((1 # 2))", &mut plan).unwrap();
    let answer = unfold(&tables, &plan[..size], 99, &mut list, &mut a, &mut b).unwrap();
    assert_eq!(answer.reached(&a, &b), [3]);
}

#[test]
fn faults_and_their_places() {
    for (text, place) in [
        ("", 0),
        ("1+", 2),
        ("T", 1),
        ("(1", 2),
        ("(1 # 2", 6),
        // No leading zeros; 45 is above n.
        ("01", 1),
        ("00", 1),
        ("45", 0),
        ("1+45", 2),
        ("5", 0),
        // Characters that cannot go on.
        ("1(2)", 1),
        ("()", 1),
        ("1)", 1),
        ("(1 #2)", 4),
        ("(1# 2)", 2),
        ("(1 + 2)", 3),
        ("(1 # 2 # 3)", 6),
        ("T(1 # 2)", 3),
        ("1 # 2", 1),
        ("H8(1)", 1),
        ("H01(1)", 2),
        ("T1", 1),
        ("1\n", 1),
        ("x", 0),
    ] {
        assert_eq!(read(text), Err((61, place)), "{text:?}");
    }
}

/// An action in so many brackets, each with these letters.
fn nested(letters: &str, depth: usize) -> String {
    let open = format!("{letters}(").repeat(depth);
    format!("{open}1{}", ")".repeat(depth))
}

#[test]
fn brackets_go_200_deep() {
    assert_eq!(read(nested("", DEEPEST)), Ok(vec![1]));
    let priorities = [vec![1], vec![70; DEEPEST]].concat();
    assert_eq!(read(nested("T", DEEPEST)), Ok(priorities));
    assert_eq!(read(nested("", DEEPEST + 1)), Err((62, DEEPEST)));
    // All brackets count, and the place is that of the bracket, not of the letter.
    let brackets = "(".repeat(DEEPEST);
    assert_eq!(read(format!("{brackets}T(")), Err((62, DEEPEST + 1)));
    assert_eq!(read(format!("{brackets}H3(")), Err((62, DEEPEST + 2)));
    // Where no bracket may stand, it is 61 at any depth; so is what comes before.
    assert_eq!(read(format!("{brackets}1(")), Err((61, DEEPEST + 1)));
    assert_eq!(read(format!("{brackets}H8(")), Err((61, DEEPEST + 1)));
    assert_eq!(read(format!("9{brackets}(")), Err((61, 0)));
}

/// A sum of so many actions: one word less than twice as many.
fn wide(actions: usize) -> String {
    vec!["1"; actions].join("+")
}

#[test]
fn plans_that_are_too_long() {
    // 16,383 words; then 16,384; then 16,385.
    assert_eq!(read(wide(8192)).unwrap().len(), 16_383);
    let full = format!("{}+T(1)", wide(8191));
    assert_eq!(read(&full).unwrap().len(), LONGEST_PLAN);
    let tables = trial_tables();
    for area in [LONGEST_PLAN, 20_000] {
        assert_eq!(read_in(&tables, wide(8193).as_bytes(), area), Err((63, 0)));
    }
    assert_eq!(
        read_in(&tables, full.as_bytes(), LONGEST_PLAN - 1),
        Err((63, 0))
    );
    // The least areas.
    assert_eq!(read_in(&tables, b"(1 # 2)", 3), Ok(vec![1, 2, 66]));
    assert_eq!(read_in(&tables, b"(1 # 2)", 2), Err((63, 0)));
    assert_eq!(read_in(&tables, b"1", 0), Err((63, 0)));
}

#[test]
fn a_fault_counts_before_the_length() {
    // 20,001 words.
    let text = wide(10_001);
    assert_eq!(read(&text), Err((63, 0)));
    let at_the_end = format!("{text}+");
    assert_eq!(read(&at_the_end), Err((61, at_the_end.len())));
    assert_eq!(
        read_in(&trial_tables(), at_the_end.as_bytes(), 0),
        Err((61, at_the_end.len()))
    );
    let deep = format!("{text}+{}", "(".repeat(DEEPEST + 1));
    assert_eq!(read(&deep), Err((62, text.len() + 1 + DEEPEST)));
}

#[test]
fn tables_are_judged_first() {
    let mut tables = trial_tables();
    assert_eq!(read_in(&tables[1..], b"1", 9), Err((1, 0)));
    tables[66] = 0;
    assert_eq!(read_in(&tables, b"1", 9), Err((5, 35)));
    assert_eq!(read_in(&tables, b"+", 0), Err((5, 35)));
}

#[test]
fn two_digits() {
    let mut tables = trial_tables();
    tables[0] = 31;
    for action in 5..=31 {
        tables[1025 + action] = 1;
    }
    assert_eq!(read_in(&tables, b"10+31", 3), Ok(vec![10, 31, 64]));
    assert_eq!(read_in(&tables, b"10+32", 3), Err((61, 3)));
    assert_eq!(read_in(&tables, b"10+310", 3), Err((61, 3)));
    // Numbers that are 1 in 8, 32 and 64 bits.
    for number in ["257", "4294967297", "18446744073709551617"] {
        assert_eq!(read_in(&tables, number.as_bytes(), 3), Err((61, 0)));
    }
}

#[test]
fn very_long_texts() {
    // Ten million characters.
    let long = 10_000_000;
    let brackets = "(1)+".repeat(long / 4);
    assert_eq!(read(&brackets), Err((61, long)));
    assert_eq!(read(&brackets[..long - 1]), Err((63, 0)));
    // A number of a million digits, behind an action and by itself.
    let digits = "1".repeat(1_000_000);
    assert_eq!(read(&digits), Err((61, 0)));
    assert_eq!(read(format!("4.{digits}")), Err((61, 2)));
    assert_eq!(read("0".repeat(1_000_000)), Err((61, 1)));
}
