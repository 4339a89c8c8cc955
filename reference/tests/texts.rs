//! Plans typed in signs: what is read, what is refused and where, and the text of a plan.

mod grammar;

use grammar::{every_text, first_fault, too_deep, Fault};
use reference::plans::{judge_plan, LONGEST_PLAN};
use reference::random::plans::{any_plan, small_plan};
use reference::random::tables::damaged_tables;
use reference::random::texts::{any_text, deep_text, derived_text, long_text, text_case, TextCase};
use reference::random::Random;
use reference::tables::{judge_tables, trial_tables, TABLES_LENGTH};
use reference::texts::{read_text, typed};
use reference::Refusal;
use std::collections::{BTreeMap, BTreeSet};

/// A byte that no area holds afterwards unless it kept it.
const OLD: u8 = 0xEE;

/// Accepted tables over n actions, without communication.
fn tables_over(n: u8) -> Vec<u8> {
    let mut tables = vec![0; TABLES_LENGTH];
    tables[0] = n;
    (1..=n as usize).for_each(|a| tables[1025 + a] = 1);
    tables
}

/// The plan that is read into an area of this length. Past the plan the area is zero; under a
/// refusal it keeps its bytes.
fn read(tables: &[u8], text: &[u8], length: usize) -> Result<Vec<u8>, Refusal> {
    let mut area = vec![OLD; length];
    let answer = read_text(tables, text, &mut area);
    match answer {
        Ok(size) => assert!(area.drain(size..).all(|byte| byte == 0)),
        Err(_) => assert_eq!(area, vec![OLD; length]),
    }
    answer.map(|_| area)
}

/// The text is read as these words with n = 4.
fn reads(text: &str, words: &[u8]) {
    let plan = read(&trial_tables(), text.as_bytes(), 40);
    assert_eq!(plan.as_deref(), Ok(words), "{text}");
    assert_eq!(judge_plan(&trial_tables(), words), Ok(()), "{text}");
}

/// The text is refused with n = 4.
fn refuses(text: &str, number: u8, place: usize) {
    let refusal = read(&trial_tables(), text.as_bytes(), 40);
    assert_eq!(refusal, Err(Refusal::at_byte(number, place)), "{text:?}");
}

#[test]
fn every_sign() {
    reads("(1 # 2)", &[1, 2, 66]);
    reads("(1 [ 2)", &[1, 2, 67]);
    reads("(1 | 2)", &[1, 2, 68]);
    reads("(1 < 2.4)", &[1, 2, 4, 65, 69]);
    reads("1+2", &[1, 2, 64]);
    reads("1.2", &[1, 2, 65]);
    reads("(1)", &[1]);
    reads("T(1+4)", &[1, 4, 64, 70]);
    reads("H0((1 # 2))", &[1, 2, 66, 80]);
    for set in 0..8 {
        reads(&format!("H{set}(3)"), &[3, 80 + set]);
    }
}

#[test]
fn groupings() {
    reads("1.2+2.1+3", &[1, 2, 65, 2, 1, 65, 64, 3, 64]);
    reads("1+2+3", &[1, 2, 64, 3, 64]);
    reads("1+(2+3)", &[1, 2, 3, 64, 64]);
    reads("1.2.3", &[1, 2, 65, 3, 65]);
    reads("1.(2.3)", &[1, 2, 3, 65, 65]);
    reads("1+2.3.4+0", &[1, 2, 3, 65, 4, 65, 64, 0, 64]);
    reads("(1+2).3", &[1, 2, 64, 3, 65]);
    reads("T(1).H7(2)+3", &[1, 70, 2, 87, 65, 3, 64]);
    reads("(1+2 # 3.4+1)", &[1, 2, 64, 3, 4, 65, 1, 64, 66]);
    reads("((1 < 2) [ T(3))+4", &[1, 2, 69, 3, 70, 67, 4, 64]);
    reads("1.(2 | (3)).((4))", &[1, 2, 3, 68, 65, 4, 65]);
    reads("(((((0)))))", &[0]);
}

#[test]
fn actions() {
    for n in 1..=31 {
        let tables = tables_over(n);
        for action in 0..=40 {
            let wanted = match action <= n {
                true => Ok(vec![action]),
                false => Err(Refusal::at_byte(61, 0)),
            };
            assert_eq!(read(&tables, action.to_string().as_bytes(), 2), wanted);
        }
    }
    refuses("45", 61, 0);
    refuses("1+45", 61, 2);
    refuses("H0(12)", 61, 3);
    refuses("45x", 61, 0);
    refuses("(45", 61, 1);
    // One that is 1 again if it is cut to 8, 16, 32, 64 or 128 bits.
    for above in [
        "257",
        "65537",
        "4294967297",
        "18446744073709551617",
        "340282366920938463463374607431768211457",
    ] {
        refuses(above, 61, 0);
        refuses(&format!("1.(2 # {above})"), 61, 7);
    }
    refuses(&"1".repeat(100_000), 61, 0);
}

#[test]
fn leading_zeros() {
    reads("0", &[0]);
    reads("0.0+0", &[0, 0, 65, 0, 64]);
    refuses("01", 61, 1);
    refuses("00", 61, 1);
    refuses("007", 61, 1);
    refuses("1+T(01)", 61, 5);
    refuses("0045", 61, 1);
    refuses("H00(1)", 61, 2);
}

#[test]
fn characters_that_cannot_go_on() {
    for text in ["+", ".", ")", "#", "[", " ", "t(1)", "δ", "-1", "\n", "x"] {
        refuses(text, 61, 0);
    }
    for (text, place) in [
        ("1)", 1),
        ("1(", 1),
        ("1(1)", 1),
        ("1T(1)", 1),
        ("1#2", 1),
        ("1\n", 1),
        ("1\0", 1),
        ("1·2", 1),
        ("T1", 1),
        ("TT(1)", 1),
        ("T()", 2),
        ("H8(1)", 1),
        ("H(1)", 1),
        ("H45(1)", 2),
        ("H7 (1)", 2),
        ("()", 1),
        ("(1))", 3),
        ("(1)(1)", 3),
        ("1++2", 2),
        ("1.+2", 2),
        ("(1+)", 3),
        ("(1]", 2),
    ] {
        refuses(text, 61, place);
    }
    let no_text = [b'1', 0xFF, 0xFE];
    let refusal = read(&trial_tables(), &no_text, 40);
    assert_eq!(refusal, Err(Refusal::at_byte(61, 1)));
}

#[test]
fn one_space_on_each_side_of_o_and_no_other_blank() {
    for (text, place) in [
        ("(1#2)", 2),
        ("(1 #2)", 4),
        ("(1# 2)", 2),
        ("(1  # 2)", 3),
        ("(1 #  2)", 5),
        ("(1\t# 2)", 2),
        ("(1 )", 3),
        ("(1 +2)", 3),
        ("(1 ## 2)", 4),
        ("( 1 # 2)", 1),
        ("(1 # 2 )", 6),
        ("(1 # 2 # 3)", 6),
        ("(1 # )", 5),
        ("T(1 # 2)", 3),
        ("H0(1 # 2)", 4),
        ("1 # 2", 1),
        ("1 ", 1),
        (" 1", 0),
        ("1 + 2", 1),
        ("(1 + 2)", 3),
        ("(1). (2)", 4),
        ("T (1)", 1),
        ("((1 # 2) # 3 # 4)", 12),
        ("(1 # T(2 < 3))", 8),
    ] {
        refuses(text, 61, place);
    }
}

#[test]
fn texts_that_end_too_early() {
    for text in [
        "",
        "1+",
        "1.",
        "T",
        "T(",
        "T(1",
        "H",
        "H0",
        "H0(",
        "(",
        "(1",
        "(1 ",
        "(1 #",
        "(1 # ",
        "(1 # 2",
        "(1+",
        "((1)",
        "1+T(2.(3 < 4)",
    ] {
        refuses(text, 61, text.len());
    }
    // Whatever begins a text that is read either is read or ends too early.
    let (mut random, tables) = (Random::new(51), trial_tables());
    for _ in 0..300 {
        let text = derived_text(&mut random, 4).text;
        for length in 0..text.len() {
            let begun = read(&tables, &text[..length], 16_384);
            if begun.is_err() {
                assert_eq!(begun, Err(Refusal::at_byte(61, length)));
            }
        }
    }
}

/// Brackets of one kind around an action, so many deep; and where the deepest opens.
fn brackets(depth: usize, open: &str, close: &str) -> (String, usize) {
    let text = format!("{}1{}", open.repeat(depth), close.repeat(depth));
    let within = open.find('(').unwrap();
    (text, open.len() * (depth - 1) + within)
}

#[test]
fn two_hundred_deep() {
    let tables = trial_tables();
    for (open, close) in [
        ("(", ")"),
        ("T(", ")"),
        ("H3(", ")"),
        ("(", " # 2)"),
        ("(2 < ", ")"),
        ("1+T(", ")"),
        ("1.(2+3.(", "))"),
    ] {
        let each = open.matches('(').count();
        let (text, _) = brackets(200 / each, open, close);
        assert!(read(&tables, text.as_bytes(), 1000).is_ok(), "{open}");
        // The brackets of a second part count from the beginning.
        let twice = format!("{text}+{text}");
        assert!(read(&tables, twice.as_bytes(), 2000).is_ok(), "{open}");
        let (text, place) = brackets(200 / each + 1, open, close);
        refuses(&text, 62, place);
        refuses(&text[..=place], 62, place);
        refuses(&text[..place], 61, place);
    }
    let open = "(".repeat(200);
    refuses(&format!("{open}T("), 62, 201);
    refuses(&format!("{open}H7("), 62, 202);
    refuses(&format!("{open}(1 # 2)"), 62, 200);
    refuses(&format!("{open}T"), 61, 201);
    refuses(&format!("{open}H8("), 61, 201);
    refuses(&format!("{open}1("), 61, 201);
    refuses(&format!("{open}1+("), 62, 202);
    refuses(&format!("{open}1).("), 61, 204);
    refuses(&format!("{open}1)).(("), 61, 206);
    refuses(&format!("{open}1)).((("), 62, 206);
}

#[test]
fn the_first_fault_counts() {
    let open = "(".repeat(201);
    refuses(&open, 62, 200);
    refuses(&format!("{open}5"), 62, 200);
    refuses(&format!("5+{open}"), 61, 0);
    refuses(&format!("01+{open}"), 61, 1);
    refuses("5+x", 61, 0);
    refuses("x+5", 61, 0);
    refuses("1 +5", 61, 1);
    refuses("1+5+", 61, 2);
}

#[test]
fn tables_are_checked_first() {
    let mut random = Random::new(52);
    let mut numbers = BTreeSet::new();
    for _ in 0..2000 {
        let tables = damaged_tables(&mut random);
        let Err(refusal) = judge_tables(&tables) else {
            continue;
        };
        numbers.insert(refusal.number);
        for text in ["", "1", "99", "x", &"(".repeat(201)] {
            assert_eq!(read(&tables, text.as_bytes(), 0), Err(refusal));
            assert_eq!(read(&tables, text.as_bytes(), 3), Err(refusal));
        }
    }
    assert_eq!(numbers, (1..=8).collect());
}

/// A sum whose plan has so many words.
fn long_sum(words: usize) -> String {
    let first = if words.is_multiple_of(2) { "T(1)" } else { "1" };
    first.to_string() + &"+1".repeat((words - 1) / 2)
}

#[test]
fn plans_that_are_too_long() {
    let tables = trial_tables();
    let sized = |words: usize, area: usize| {
        let read = read(&tables, long_sum(words).as_bytes(), area);
        read.map(|plan| plan.len())
    };
    let too_long = Err(Refusal::nowhere(63));
    for words in [1, 2, 3, 4, 500, 16_383, 16_384] {
        assert_eq!(sized(words, words), Ok(words));
        assert_eq!(sized(words, words + 1), Ok(words));
        assert_eq!(sized(words, 20_000), Ok(words));
        assert_eq!(sized(words, words - 1), too_long);
        assert_eq!(sized(words, 0), too_long);
    }
    for words in [16_385, 16_386, 20_000] {
        for area in [0, 16_384, 16_385, 20_000, 40_000] {
            assert_eq!(sized(words, area), too_long);
        }
    }
    assert_eq!(Refusal::nowhere(63).printed(), 0);
}

#[test]
fn faults_behind_a_plan_that_is_too_long() {
    let tables = trial_tables();
    let long = long_sum(20_000);
    let length = long.len();
    let deep = format!("+{}", "(".repeat(201));
    for (end, number, place) in [
        ("+", 61, length + 1),
        (")", 61, length),
        ("\n", 61, length),
        ("+5", 61, length + 1),
        ("+01", 61, length + 2),
        (&deep, 62, length + 201),
    ] {
        let refusal = Err(Refusal::at_byte(number, place));
        let text = format!("{long}{end}");
        for area in [0, 10, 20_000] {
            assert_eq!(read(&tables, text.as_bytes(), area), refusal, "{end}");
        }
        // So it is for a plan that is longer than its area alone.
        let text = format!("1{end}");
        let refusal = Err(Refusal::at_byte(number, place + 1 - length));
        assert_eq!(read(&tables, text.as_bytes(), 0), refusal, "{end}");
    }
}

#[test]
fn texts_of_millions_of_characters() {
    let tables = trial_tables();
    let at = |number, place| Err(Refusal::at_byte(number, place));
    let many = |piece: &str| piece.repeat(1_000_000).into_bytes();
    assert_eq!(read(&tables, &many("((1).2)+1."), 9), at(61, 10_000_000));
    assert_eq!(read(&tables, &many("(1 # "), 9), at(62, 1000));
    assert_eq!(read(&tables, &many("("), 9), at(62, 200));
    assert_eq!(read(&tables, &many("3"), 9), at(61, 0));
    assert_eq!(read(&tables, &many("0"), 9), at(61, 1));
    assert_eq!(read(&tables, &many(")"), 9), at(61, 0));
    let sum = [&many("1.(2 < 3)+")[..], b"1"].concat();
    assert_eq!(read(&tables, &sum, 9), Err(Refusal::nowhere(63)));
}

/// Compares what a text is refused with, in an area of no byte, with what the rules of the grammar
/// give.
fn compare(tables: &[u8], text: &[u8]) -> Option<Fault> {
    let fault = first_fault(tables[0], text);
    let wanted = match fault {
        Some((place, fault)) => Refusal::at_byte(fault.number(), place),
        None => Refusal::nowhere(63),
    };
    let shown = String::from_utf8_lossy(text);
    assert_eq!(read(tables, text, 0), Err(wanted), "{shown}");
    fault.map(|(_, fault)| fault)
}

#[test]
fn every_small_text_is_one_plan() {
    let tables = tables_over(1);
    let texts = every_text(12);
    assert!(texts.len() > 10_000, "{}", texts.len());
    for (text, plan) in texts {
        assert_eq!(
            read(&tables, text.as_bytes(), 12).as_ref(),
            Ok(&plan),
            "{text}"
        );
    }
}

#[test]
fn every_small_fault() {
    let (tables, most) = (tables_over(1), 7);
    let mut derived = BTreeSet::new();
    let mut begun = vec![String::new()];
    while let Some(text) = begun.pop() {
        let fault = compare(&tables, text.as_bytes());
        if fault.is_none() {
            derived.insert(text.clone());
        }
        // No character helps a text that has another fault than its end.
        if text.len() < most && fault.is_none_or(|fault| fault == Fault::EndsTooEarly) {
            let longer = "01+.()TH #".chars().map(|c| format!("{text}{c}"));
            begun.extend(longer);
        }
    }
    let wanted: BTreeSet<String> = every_text(most).into_keys().collect();
    assert_eq!(derived, wanted);
}

#[test]
fn faults_of_random_texts() {
    let mut random = Random::new(53);
    let mut counts: BTreeMap<Option<Fault>, usize> = BTreeMap::new();
    for n in [1, 4, 9, 10, 31].repeat(1200) {
        let text = any_text(&mut random, n).text;
        if text.len() < 5000 {
            let fault = compare(&tables_over(n), &text);
            *counts.entry(fault).or_default() += 1;
        }
    }
    assert_eq!(counts.len(), 5, "{counts:?}");
    assert!(counts.values().all(|&count| count > 100), "{counts:?}");
}

#[test]
fn derived_texts_are_read_as_their_plans() {
    let mut random = Random::new(54);
    for n in [1, 4, 9, 10, 31].repeat(1000) {
        let tables = tables_over(n);
        let told = derived_text(&mut random, n);
        let length = told.words.len() + random.below(2);
        let plan = read(&tables, &told.text, length);
        assert_eq!(plan.as_ref(), Ok(&told.words));
        // No text of this plan has fewer brackets than the typed one.
        let of = |text: &[u8]| text.iter().filter(|&&c| c == b'(').count();
        assert!(of(&typed(&told.words)) <= of(&told.text));
    }
}

#[test]
fn deep_and_long_texts_are_read_as_their_plans() {
    let (mut random, tables) = (Random::new(55), tables_over(9));
    let mut met = [0; 5];
    for turn in 0..600 {
        let told = match turn % 10 {
            0 => long_text(&mut random, 9),
            _ => deep_text(&mut random, 9),
        };
        let (wanted, kind) = match (too_deep(&told.text), told.words.len()) {
            (Some(place), _) => (Err(Refusal::at_byte(62, place)), 0),
            (None, 16_385..) => (Err(Refusal::nowhere(63)), 1),
            (None, 16_384) => (Ok(told.words), 2),
            (None, 16_383) => (Ok(told.words), 3),
            (None, _) => (Ok(told.words), 4),
        };
        assert_eq!(read(&tables, &told.text, 20_000), wanted);
        met[kind] += 1;
    }
    assert!(met.iter().all(|&count| count > 3), "{met:?}");
    assert!(met[0] > 100 && met[4] > 100, "{met:?}");
}

#[test]
fn typed_texts() {
    for (plan, text) in [
        (&[0][..], "0"),
        (&[31], "31"),
        (&[1, 2, 66], "(1 # 2)"),
        (&[1, 2, 66, 80], "H0((1 # 2))"),
        (&[1, 4, 64, 70], "T(1+4)"),
        (&[1, 2, 65, 2, 1, 65, 64, 3, 64], "1.2+2.1+3"),
        (&[1, 2, 4, 65, 69], "(1 < 2.4)"),
        (&[1, 2, 3, 64, 64], "1+(2+3)"),
        (&[1, 2, 3, 65, 65], "1.(2.3)"),
        (&[1, 2, 65, 3, 65], "1.2.3"),
        (&[1, 2, 64, 3, 65], "(1+2).3"),
        (&[1, 2, 3, 64, 65], "1.(2+3)"),
        (&[1, 2, 64, 3, 4, 64, 67], "(1+2 [ 3+4)"),
        (&[1, 2, 68, 3, 68, 4, 65], "((1 | 2) | 3).4"),
        (&[1, 70, 70, 87, 2, 65], "H7(T(T(1))).2"),
    ] {
        assert_eq!(String::from_utf8(typed(plan)).unwrap(), text);
        assert_eq!(
            read(&tables_over(31), text.as_bytes(), 20),
            Ok(plan.to_vec())
        );
    }
}

#[test]
fn typed_texts_are_read_back() {
    let (mut random, mut deep, mut long) = (Random::new(56), 0, 0);
    for _ in 0..3000 {
        let n = random.pick(&[1, 4, 12, 31]);
        let plan = any_plan(&mut random, n);
        let text = typed(&plan);
        let wanted = match too_deep(&text) {
            None => Ok(plan.clone()),
            Some(place) => Err(Refusal::at_byte(62, place)),
        };
        deep += usize::from(wanted.is_err());
        long += usize::from(wanted.is_ok() && plan.len() > 8000);
        assert_eq!(read(&tables_over(n), &text, plan.len()), wanted);
    }
    assert!(deep > 5 && long > 5, "{deep} {long}");
    let mut deepest = vec![1];
    deepest.resize(LONGEST_PLAN, 70);
    let refusal = read(&tables_over(1), &typed(&deepest), LONGEST_PLAN);
    assert_eq!(refusal, Err(Refusal::at_byte(62, 401)));
}

#[test]
fn brackets_only_where_needed() {
    let (mut random, tables) = (Random::new(57), tables_over(4));
    let mut tried = 0;
    for _ in 0..2000 {
        let plan = small_plan(&mut random, 4, 14);
        let text = typed(&plan);
        let mut open = Vec::new();
        for place in 0..text.len() {
            match text[place] {
                b'(' => open.push(place),
                b')' => {
                    let mut bare = text.clone();
                    bare.remove(place);
                    bare.remove(open.pop().unwrap());
                    tried += 1;
                    assert_ne!(read(&tables, &bare, 14), Ok(plan.clone()));
                }
                _ => {}
            }
        }
    }
    assert!(tried > 2000, "{tried}");
}

/// The endings that a case is one of.
fn endings(case: &TextCase) -> Vec<&'static str> {
    let outcome = case.run();
    let refusal = match outcome.answer {
        Err(refusal) => refusal,
        Ok(size) => {
            let (plan, rest) = outcome.plan.split_at(size);
            assert_eq!(judge_plan(&case.tables, plan), Ok(()));
            assert!(rest.iter().all(|&byte| byte == 0));
            let kept = case.plan[size..].iter().all(|&byte| byte == 0);
            return kinds(&[
                ("read", true),
                ("read, full area", rest.is_empty()),
                ("read, zeros put behind", !kept),
                ("read, longest", size == LONGEST_PLAN),
            ]);
        }
    };
    assert_eq!(outcome.plan, case.plan);
    if refusal.number < 61 {
        assert_eq!(judge_tables(&case.tables), Err(refusal));
        return vec![["", "1", "2", "3", "4", "5", "6", "7", "8"][refusal.number as usize]];
    }
    let (n, words) = (case.tables[0], case.plan.len());
    let Some((place, fault)) = first_fault(n, &case.text) else {
        assert_eq!(refusal, Refusal::nowhere(63));
        let room = read(&case.tables, &case.text, LONGEST_PLAN);
        let size = room.as_ref().map_or(usize::MAX, Vec::len);
        return kinds(&[
            ("63, no area", words == 0),
            ("63, by one word", size == words + 1),
            ("63, longer than the longest", room.is_err()),
            ("63, in a long area", words > LONGEST_PLAN),
        ]);
    };
    assert_eq!(refusal, Refusal::at_byte(fault.number(), place));
    let far = place >= LONGEST_PLAN;
    kinds(&[
        ("61, can't go on", fault == Fault::CannotGoOn),
        ("61, ends too early", fault == Fault::EndsTooEarly),
        ("61, above n", fault == Fault::AboveN),
        ("61, far behind", far && fault != Fault::TooDeep),
        ("62", fault == Fault::TooDeep),
    ])
}

/// Those kinds that are there.
fn kinds(all: &[(&'static str, bool)]) -> Vec<&'static str> {
    all.iter()
        .filter(|(_, here)| *here)
        .map(|one| one.0)
        .collect()
}

#[test]
fn random_cases_reach_every_ending() {
    let mut random = Random::new(58);
    let mut counts: BTreeMap<&str, usize> = BTreeMap::new();
    for _ in 0..12_000 {
        let case = text_case(&mut random);
        for ending in endings(&case) {
            *counts.entry(ending).or_default() += 1;
        }
    }
    let numbers = ["1", "2", "3", "4", "5", "6", "7", "8"];
    let faults = ["61, can't go on", "61, ends too early", "61, above n", "62"];
    let long = [
        "61, far behind",
        "63, longer than the longest",
        "63, in a long area",
    ];
    let areas = ["63, no area", "63, by one word"];
    let read = [
        "read",
        "read, full area",
        "read, zeros put behind",
        "read, longest",
    ];
    let wanted = [&numbers[..], &faults, &long, &areas, &read].concat();
    let rare = wanted
        .iter()
        .filter(|&end| counts.get(end).is_none_or(|&count| count < 3));
    assert_eq!(rare.collect::<Vec<_>>(), Vec::<&&str>::new(), "{counts:?}");
}

#[test]
fn the_same_seed_gives_the_same_cases() {
    let cases = |seed| {
        let mut random = Random::new(seed);
        let mut next = || text_case(&mut random);
        (0..50).map(|_| next().text).collect::<Vec<Vec<u8>>>()
    };
    assert_eq!(cases(1), cases(1));
    assert_ne!(cases(1), cases(2));
}
