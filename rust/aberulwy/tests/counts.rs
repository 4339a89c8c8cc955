//! Orders and stuck paths, through the safe call and the raw one.

use aberulwy::examples::trial_tables;
use aberulwy::*;
use reference::random::plans::{any_plan, basic_plan, repeating_basic_plan, NOT_BASIC};
use reference::random::tables::TRIAL_FAULTS;
use reference::random::walks::nearly_basic_plan;
use reference::random::Random;

/// The words of the longest basic plans: there is one sign less than there are actions.
const LONGEST_BASIC: usize = LONGEST_PLAN - 1;

/// The orders and the stuck paths of a plan, under the tables of the trial trays. The raw call
/// answers the same, with no refusal and no place.
fn counted(plan: &[u8]) -> (usize, usize) {
    let tables = trial_tables();
    let Counts { orders, stuck } = count_orders(&tables, plan).unwrap();
    let answer = raw::CountedPaths {
        number: 0,
        orders,
        stuck,
        place: 0,
    };
    assert_eq!(raw::count_orders(&tables, plan), answer, "{plan:?}");
    (orders, stuck)
}

/// How many paths of a basic plan finish, and how many are stuck, counted subplan by subplan: each
/// one that waits has its pair.
fn by_subplans(plan: &[u8]) -> (usize, usize) {
    let mut waiting = Vec::new();
    for &word in plan {
        let pair = match word {
            0 => (0, 1),
            64 => {
                let (second, first): ((usize, usize), (usize, usize)) =
                    (waiting.pop().unwrap(), waiting.pop().unwrap());
                (first.0 + second.0, first.1 + second.1)
            }
            65 => {
                let second = waiting.pop().unwrap();
                assert_eq!(waiting.pop(), Some((1, 0)));
                second
            }
            _ => (1, 0),
        };
        waiting.push(pair);
    }
    assert_eq!(waiting.len(), 1);
    waiting[0]
}

/// How often a word stands in a plan.
fn count(plan: &[u8], wanted: u8) -> usize {
    plan.iter().filter(|&&word| word == wanted).count()
}

#[test]
fn the_request() {
    // "The plan `0` has no order and one stuck; a plan not basic has 0 of both."
    assert_eq!(counted(&[0]), (0, 1));
    assert_eq!(counted(&[1, 2, 66]), (0, 0));
    // The first trial tray's plan, unfolded: three orders.
    assert_eq!(counted(&[1, 2, 65, 2, 1, 65, 64, 3, 64]), (3, 0));
}

#[test]
fn basic_plans() {
    let cases: [(&[u8], (usize, usize)); 14] = [
        (&[1], (1, 0)),
        (&[4], (1, 0)),
        (&[1, 2, 65], (1, 0)),
        (&[1, 0, 65], (0, 1)),
        (&[1, 2, 0, 65, 65], (0, 1)),
        // A path that stands twice counts twice.
        (&[1, 1, 64], (2, 0)),
        (&[1, 0, 65, 1, 0, 65, 64], (0, 2)),
        // Sums with both, in either order: 1·δ + 2, and 2 + 1·δ.
        (&[1, 0, 65, 2, 64], (1, 1)),
        (&[2, 1, 0, 65, 64], (1, 1)),
        // A choice behind an action: 1·(2·δ + 3), and 1·(2·δ + 3) + 4·δ.
        (&[1, 2, 0, 65, 3, 64, 65], (1, 1)),
        (&[1, 2, 0, 65, 3, 64, 65, 4, 0, 65, 64], (1, 2)),
        // Sums of both groupings: (1 + 2·δ) + 3, and 1·δ + (2 + 3·δ).
        (&[1, 2, 0, 65, 64, 3, 64], (2, 1)),
        (&[1, 0, 65, 2, 3, 0, 65, 64, 64], (1, 2)),
        // The same action finishes, or is stuck.
        (&[1, 1, 0, 65, 64], (1, 1)),
    ];
    for (plan, wanted) in cases {
        assert_eq!(is_basic(&trial_tables(), plan), Ok(true), "{plan:?}");
        assert_eq!(counted(plan), wanted, "{plan:?}");
        assert_eq!(by_subplans(plan), wanted, "{plan:?}");
    }
}

#[test]
fn plans_that_are_not_basic_count_nothing() {
    for plan in NOT_BASIC {
        assert_eq!(is_basic(&trial_tables(), plan), Ok(false), "{plan:?}");
        assert_eq!(counted(plan), (0, 0), "{plan:?}");
    }
}

/// The call is refused so, with 0 of both; judging the plan is refused alike.
fn refused(tables: &[u8], plan: &[u8], number: u8, place: usize) {
    let answer = raw::CountedPaths {
        number,
        orders: 0,
        stuck: 0,
        place,
    };
    assert_eq!(raw::count_orders(tables, plan), answer, "{plan:?}");
    let refusal = count_orders(tables, plan).unwrap_err();
    assert_eq!((refusal.number(), refusal.printed()), (number, place));
    assert_eq!(judge_plan(tables, plan), Err(refusal));
}

#[test]
fn refusals_set_both_to_0() {
    let tables = trial_tables();
    // The tables' faults, with a plan that has an order and a stuck path, and with none.
    for plan in [&[1, 0, 65, 2, 64][..], &[0], &[], &[1, 66]] {
        refused(&[], plan, 1, 0);
        refused(&tables[1..], plan, 1, 0);
        refused(&[&tables[..], &[0]].concat(), plan, 1, 0);
        for (index, byte, number, place) in TRIAL_FAULTS {
            let mut damaged = tables;
            damaged[index] = byte;
            refused(&damaged, plan, number, place);
        }
    }
    // The plan's, behind a beginning that would have counts.
    refused(&tables, &[], 11, 0);
    refused(&tables, &[0; LONGEST_PLAN + 1], 11, 0);
    refused(&tables, &long_sum(&[1], LONGEST_PLAN + 1), 11, 0);
    refused(&tables, &[1, 0, 65, 5, 64], 12, 3);
    refused(&tables, &[1, 0, 65, 2, 64, 32], 12, 5);
    refused(&tables, &[1, 0, 65, 64], 13, 3);
    refused(&tables, &[65], 13, 0);
    refused(&tables, &[1, 0, 65, 2], 14, 0);
    refused(&tables, &[0, 0], 14, 0);
}

/// A sum of one plan again and again, grouped to the left, of this many words.
fn long_sum(summand: &[u8], words: usize) -> Vec<u8> {
    let mut plan = summand.to_vec();
    while plan.len() < words {
        plan.extend(summand);
        plan.push(64);
    }
    assert_eq!(plan.len(), words);
    plan
}

/// The same sum, grouped to the right.
fn long_sum_to_the_right(summand: &[u8], words: usize) -> Vec<u8> {
    let summands = (words + 1) / (summand.len() + 1);
    let mut plan = summand.repeat(summands);
    plan.resize(words, 64);
    plan
}

#[test]
fn the_longest_plans() {
    for sum in [long_sum, long_sum_to_the_right] {
        // The most orders, and the most that are stuck.
        assert_eq!(counted(&sum(&[1], LONGEST_BASIC)), (8192, 0));
        assert_eq!(counted(&sum(&[1, 2, 65], LONGEST_BASIC)), (4096, 0));
        assert_eq!(counted(&sum(&[1, 0, 65], LONGEST_BASIC)), (0, 4096));
        // 2·(3 + 1·δ), as often as there is room.
        let both = sum(&[2, 3, 1, 0, 65, 64, 65], LONGEST_BASIC);
        assert_eq!(counted(&both), (2048, 2048));
        // One dead stop among actions, as the last summand: the sum is not basic.
        let mut spoilt = sum(&[1], LONGEST_BASIC);
        let last = spoilt.iter().rposition(|&word| word == 1).unwrap();
        spoilt[last] = 0;
        assert_eq!(counted(&spoilt), (0, 0));
        // A plan of one word more is not basic.
        let longer = [sum(&[1], LONGEST_BASIC), vec![70]].concat();
        assert_eq!(counted(&longer), (0, 0));
    }
    // A chain has one path, and its last word says how it ends.
    for (last, wanted) in [(1, (1, 0)), (0, (0, 1))] {
        let mut chain = vec![1; LONGEST_PLAN / 2 - 1];
        chain.push(last);
        chain.resize(LONGEST_BASIC, 65);
        assert_eq!(counted(&chain), wanted);
    }
}

#[test]
fn random_basic_plans() {
    let mut random = Random::new(103);
    // Orders alone, stuck paths alone, both.
    let mut kinds = [0; 3];
    for _ in 0..4000 {
        let most = random.pick(&[1, 5, 14, 40, 400]);
        let size = random.between(1, most);
        for plan in [
            basic_plan(&mut random, 4, size),
            repeating_basic_plan(&mut random, 4, size),
        ] {
            assert_eq!(is_basic(&trial_tables(), &plan), Ok(true), "{plan:?}");
            let (orders, stuck) = counted(&plan);
            assert_eq!(orders + stuck, count(&plan, 64) + 1, "{plan:?}");
            assert_eq!(stuck, count(&plan, 0), "{plan:?}");
            assert_eq!((orders, stuck), by_subplans(&plan), "{plan:?}");
            let kind = match (orders, stuck) {
                (_, 0) => 0,
                (0, _) => 1,
                _ => 2,
            };
            kinds[kind] += 1;
        }
    }
    assert!(kinds.iter().all(|&kind| kind > 1000), "{kinds:?}");
}

#[test]
fn random_plans_basic_or_not() {
    let mut random = Random::new(104);
    let mut kinds = [0; 2];
    for _ in 0..2000 {
        for plan in [any_plan(&mut random, 4), nearly_basic_plan(&mut random, 4)] {
            let basic = is_basic(&trial_tables(), &plan).unwrap();
            let wanted = if basic { by_subplans(&plan) } else { (0, 0) };
            assert_eq!(counted(&plan), wanted, "{plan:?}");
            // A basic plan has a path, so that 0 of both tells that a plan is not basic.
            assert_eq!(basic, wanted != (0, 0), "{plan:?}");
            kinds[usize::from(basic)] += 1;
        }
    }
    assert!(kinds.iter().all(|&kind| kind > 500), "{kinds:?}");
}

/// The first line of a station file's listing, from `orders` on.
fn printed(plan: &[u8]) -> String {
    let (mut file, mut out) = (vec![7; LONGEST_STATION], vec![7; LONGEST_LISTING]);
    let size = write_station(&trial_tables(), plan, &mut file).unwrap();
    let text = list_station(&file[..size], &mut out).unwrap();
    let text = std::str::from_utf8(text).unwrap();
    let first = text.lines().next().unwrap();
    let (_, counts) = first.split_once(" orders ").unwrap();
    // They are those of the plan reached, which is the second line.
    let words = text.lines().nth(1).unwrap().split(' ');
    let reached: Vec<u8> = words.map(|word| word.parse().unwrap()).collect();
    let (orders, stuck) = counted(&reached);
    assert_eq!(counts, format!("{orders} stuck {stuck}"), "{plan:?}");
    format!("orders {counts}")
}

#[test]
fn the_first_line_ends_with_both() {
    let ten_merged = [vec![1; 10], vec![66; 9]].concat();
    let cases: [(&[u8], &str); 10] = [
        (&[1, 2, 66], "orders 3 stuck 0"),
        (&[0], "orders 0 stuck 1"),
        (&[1, 0, 65], "orders 0 stuck 1"),
        (&[0, 1, 65], "orders 0 stuck 1"),
        (&[0, 0, 64], "orders 0 stuck 1"),
        (&[1, 1, 64], "orders 2 stuck 0"),
        (&[1, 0, 65, 1, 0, 65, 64], "orders 0 stuck 2"),
        (&[1, 0, 65, 2, 64], "orders 1 stuck 1"),
        (&[1, 0, 65, 2, 64, 3, 67], "orders 1 stuck 1"),
        // Stopped on the way: the plan reached is not basic.
        (&ten_merged, "orders 0 stuck 0"),
    ];
    for (plan, wanted) in cases {
        assert_eq!(printed(plan), wanted, "{plan:?}");
    }
    // As many as the program's longest plan has: more digits than one.
    let sum = long_sum(&[1], 8191);
    assert_eq!(printed(&sum), "orders 4096 stuck 0");
    let sum = long_sum(&[2, 3, 1, 0, 65, 64, 65], 8191);
    assert_eq!(printed(&sum), "orders 1024 stuck 1024");
}
