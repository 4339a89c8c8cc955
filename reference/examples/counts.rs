//! Prints how many random cases end in each number, and how many run in a second.
//!
//! `counts [cases] [seed]`

use reference::random::cases::{check_case, own_rewriting_case, unfold_case};
use reference::random::forms::form_case;
use reference::random::precedence::precedence_case;
use reference::random::stations::{station_case, write_case};
use reference::random::texts::text_case;
use reference::random::walks::{fresh_walk_case, walk_case};
use reference::random::Random;
use reference::Refusal;
use std::collections::BTreeMap;
use std::time::{Duration, Instant};

/// Makes a case, runs it and answers its number.
type Kind = fn(&mut Random) -> u8;
/// How many cases ended in each number.
type Counts = BTreeMap<u8, usize>;

fn main() {
    let mut given = std::env::args().skip(1);
    let mut number = |default| given.next().map_or(default, |text| text.parse().unwrap());
    let (cases, seed) = (number(20_000), number(1));
    let mut random = Random::new(seed);
    let kinds: [(&str, Kind); 9] = [
        ("unfolding, then its own rewriting checked", unfolding),
        ("checking", checking),
        ("station files", stations),
        ("texts", texts),
        ("fresh walks", fresh_walks),
        ("messages", messages),
        ("precedence", precedence),
        ("station files written", written_stations),
        ("fixed forms", forms),
    ];
    for (name, kind) in kinds {
        let (counts, slowest, time) = count(cases, &mut random, kind);
        let rate = cases as f64 / time.as_secs_f64();
        println!("{name}: {cases} cases, {rate:.0} a second, slowest {slowest:?}");
        for (number, count) in counts {
            println!("  {number:>3} {count:>8}");
        }
    }
}

fn count(cases: u64, random: &mut Random, kind: Kind) -> (Counts, Duration, Duration) {
    let mut counts = Counts::new();
    let mut slowest = Duration::ZERO;
    let begin = Instant::now();
    for _ in 0..cases {
        let begin = Instant::now();
        *counts.entry(kind(random)).or_default() += 1;
        slowest = slowest.max(begin.elapsed());
    }
    (counts, slowest, begin.elapsed())
}

fn unfolding(random: &mut Random) -> u8 {
    let case = unfold_case(random);
    if let Some(own) = own_rewriting_case(&case) {
        assert_eq!(
            own.run().answer.number(),
            0,
            "the own rewriting is accepted"
        );
    }
    case.run().answer.number()
}

fn checking(random: &mut Random) -> u8 {
    check_case(random).run().answer.number()
}

fn stations(random: &mut Random) -> u8 {
    number(station_case(random).run().answer)
}

fn texts(random: &mut Random) -> u8 {
    number(text_case(random).run().answer)
}

fn fresh_walks(random: &mut Random) -> u8 {
    number(fresh_walk_case(random).run().answer)
}

fn messages(random: &mut Random) -> u8 {
    number(walk_case(random).run().answer)
}

fn precedence(random: &mut Random) -> u8 {
    number(precedence_case(random).run())
}

fn written_stations(random: &mut Random) -> u8 {
    number(write_case(random).run().answer)
}

fn forms(random: &mut Random) -> u8 {
    number(form_case(random).run().answer)
}

/// The number of a refusal, 0 where there is none.
fn number<T>(answer: Result<T, Refusal>) -> u8 {
    answer.map_or_else(|refusal| refusal.number, |_| 0)
}
