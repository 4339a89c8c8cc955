//! Weight before photograph, through the safe call and the raw one.

use aberulwy::examples::trial_tables;
use aberulwy::*;
use reference::random::plans::{basic_plan, repeating_basic_plan, NOT_BASIC};
use reference::random::precedence::precedence_case;
use reference::random::tables::TRIAL_FAULTS;
use reference::random::Random;
use Precedence::{No, Yes};

/// The words of the longest basic plans: there is one sign less than there are actions.
const LONGEST_BASIC: usize = LONGEST_PLAN - 1;

/// The answer to a plan under tables. The raw call answers the same, with no refusal and no place,
/// and `at` is 0 but under no.
fn asked_under(tables: &[u8], plan: &[u8], first: u8, second: u8) -> Precedence {
    let answer = precedes(tables, plan, first, second).unwrap();
    let (yes, at) = match answer {
        Yes => (1, 0),
        No { at } => (0, at),
    };
    let raw = raw::Preceded {
        number: 0,
        yes,
        at,
        place: 0,
    };
    assert_eq!(raw::precedes(tables, plan, first, second), raw);
    answer
}

/// The answer under the tables of the trial trays.
fn asked(plan: &[u8], first: u8, second: u8) -> Precedence {
    asked_under(&trial_tables(), plan, first, second)
}

/// The places of the second action that have none of the first before them, put together subplan
/// by subplan: each one that waits has its own places.
fn by_subplans(plan: &[u8], first: u8, second: u8) -> Vec<usize> {
    let mut waiting: Vec<(u8, Vec<usize>)> = Vec::new();
    for (place, &word) in plan.iter().enumerate() {
        let places = match word {
            64 => {
                let ((_, y), (_, x)) = (waiting.pop().unwrap(), waiting.pop().unwrap());
                [x, y].concat()
            }
            65 => {
                let ((_, y), (action, x)) = (waiting.pop().unwrap(), waiting.pop().unwrap());
                match action == first {
                    true => x,
                    false => [x, y].concat(),
                }
            }
            _ if word == second => vec![place],
            _ => Vec::new(),
        };
        waiting.push((word, places));
    }
    assert_eq!(waiting.len(), 1);
    waiting.remove(0).1
}

/// The answer that goes with these places.
fn least(places: &[usize]) -> Precedence {
    match places {
        [] => Yes,
        [at, ..] => No { at: *at },
    }
}

#[test]
fn the_request() {
    // "on every path each appearance of the second has the first somewhere before it"
    assert_eq!(asked(&[1, 2, 65], 1, 2), Yes);
    assert_eq!(asked(&[1, 3, 2, 65, 65], 1, 2), Yes);
    assert_eq!(asked(&[1, 2, 2, 65, 65], 1, 2), Yes);
    // "the place of an appearance that has none before it on its path, the least such place"
    assert_eq!(asked(&[2, 1, 65], 1, 2), No { at: 0 });
    assert_eq!(asked(&[2, 1, 2, 65, 64], 1, 2), No { at: 0 });
    // "The answer is yes exactly if no such path exists."
    assert_eq!(asked(&[1, 3, 65], 1, 2), Yes);
    // The first trial tray's plan, unfolded: 1·2 + 2·1 + 3.
    let tray = [1, 2, 65, 2, 1, 65, 64, 3, 64];
    assert_eq!(asked(&tray, 1, 2), No { at: 3 });
    assert_eq!(asked(&tray, 2, 1), No { at: 0 });
    assert_eq!(asked(&tray, 1, 3), No { at: 7 });
    assert_eq!(asked(&tray, 1, 4), Yes);
}

#[test]
fn the_first_before_the_second() {
    let cases: [(&[u8], Precedence); 22] = [
        // The second alone, before a dead stop, and behind others.
        (&[2], No { at: 0 }),
        (&[2, 0, 65], No { at: 0 }),
        (&[3, 2, 65], No { at: 1 }),
        (&[3, 4, 2, 65, 65], No { at: 2 }),
        (&[2, 2, 65], No { at: 0 }),
        // Behind the first, and far behind it.
        (&[1, 2, 0, 65, 65], Yes),
        (&[3, 1, 4, 2, 65, 65, 65], Yes),
        (&[1, 2, 1, 2, 65, 65, 65], Yes),
        // The first behind it: 2·1, 2·(1·2), 3·(2·1).
        (&[2, 1, 65], No { at: 0 }),
        (&[2, 1, 2, 65, 65], No { at: 0 }),
        (&[3, 2, 1, 65, 65], No { at: 1 }),
        // The first in another summand: 1 + 2, 2 + 1, 1·3 + 2, 3·(1 + 2).
        (&[1, 2, 64], No { at: 1 }),
        (&[2, 1, 64], No { at: 0 }),
        (&[1, 3, 65, 2, 64], No { at: 3 }),
        (&[3, 1, 2, 64, 65], No { at: 2 }),
        // Before a whole sum: 1·(2 + 3), 1·((2 + 3) + 2), 1·(3 + (4 + 2)).
        (&[1, 2, 3, 64, 65], Yes),
        (&[1, 2, 3, 64, 2, 64, 65], Yes),
        (&[1, 3, 4, 2, 64, 64, 65], Yes),
        // Before one of the summands: 3·(1·2 + 2), 3·(2 + 1·2), 3·(4 + 1·2).
        (&[3, 1, 2, 65, 2, 64, 65], No { at: 4 }),
        (&[3, 2, 1, 2, 65, 64, 65], No { at: 1 }),
        (&[3, 4, 1, 2, 65, 64, 65], Yes),
        (&[1, 2, 65, 1, 2, 65, 64], Yes),
    ];
    for (plan, wanted) in cases {
        assert_eq!(is_basic(&trial_tables(), plan), Ok(true), "{plan:?}");
        assert_eq!(asked(plan, 1, 2), wanted, "{plan:?}");
        assert_eq!(least(&by_subplans(plan, 1, 2)), wanted, "{plan:?}");
    }
}

#[test]
fn the_least_place_is_not_always_the_first_appearance() {
    // 1·2 + 3·2 + 2: the 2 at 1 has the first before it, and those at 4 and 7 have not.
    let plan = [1, 2, 65, 3, 2, 65, 64, 2, 64];
    assert_eq!(by_subplans(&plan, 1, 2), [4, 7]);
    assert_eq!(asked(&plan, 1, 2), No { at: 4 });
    // 1·2 + 2·(1·2): neither the first that appears nor the last.
    let plan = [1, 2, 65, 2, 1, 2, 65, 65, 64];
    assert_eq!(by_subplans(&plan, 1, 2), [3]);
    assert_eq!(asked(&plan, 1, 2), No { at: 3 });
    // 3·(2·2) + 2: least among the words, though the path to the last one is shorter.
    assert_eq!(asked(&[3, 2, 2, 65, 65, 2, 64], 1, 2), No { at: 1 });
}

#[test]
fn a_plan_without_the_second() {
    for plan in [&[0][..], &[1], &[3], &[1, 0, 65], &[1, 3, 64], &[3, 4, 65]] {
        assert_eq!(asked(plan, 1, 2), Yes, "{plan:?}");
        assert_eq!(asked(plan, 4, 2), Yes, "{plan:?}");
    }
}

#[test]
fn paths_into_a_dead_stop_count() {
    // 1·2 + 2·δ, and 1·2 + 3·(2·δ): the only path that has the second alone is stuck.
    assert_eq!(asked(&[1, 2, 65, 2, 0, 65, 64], 1, 2), No { at: 3 });
    assert_eq!(asked(&[1, 2, 65, 3, 2, 0, 65, 65, 64], 1, 2), No { at: 4 });
    // No path finishes: 2·δ, 1·(2·δ), 1·δ + 2·δ.
    assert_eq!(asked(&[2, 0, 65], 1, 2), No { at: 0 });
    assert_eq!(asked(&[1, 2, 0, 65, 65], 1, 2), Yes);
    assert_eq!(asked(&[1, 0, 65, 2, 0, 65, 64], 1, 2), No { at: 3 });
    // 2·(1·δ + 1·2): the second is there before either path goes on.
    let plan = [2, 1, 0, 65, 1, 2, 65, 64, 65];
    assert_eq!(asked(&plan, 1, 2), No { at: 0 });
}

/// The call is refused so, with 0 for both numbers.
fn refused(tables: &[u8], plan: &[u8], (first, second): (u8, u8), number: u8, place: usize) {
    let answer = raw::Preceded {
        number,
        yes: 0,
        at: 0,
        place,
    };
    let raw = raw::precedes(tables, plan, first, second);
    assert_eq!(raw, answer, "{first}, {second}");
    let refusal = precedes(tables, plan, first, second).unwrap_err();
    assert_eq!((refusal.number(), refusal.printed()), (number, place));
}

/// Pairs that get 73 under the tables of the trial trays, which have four actions: equal ones, and
/// dead stop, n + 1 and other bytes in either position, or in both.
const NO_PAIRS: [(u8, u8); 22] = [
    (1, 1),
    (2, 2),
    (4, 4),
    (0, 0),
    (5, 5),
    (255, 255),
    (0, 2),
    (1, 0),
    (5, 2),
    (1, 5),
    (31, 2),
    (1, 31),
    (32, 2),
    (1, 32),
    (64, 2),
    (1, 65),
    (255, 2),
    (1, 255),
    (0, 5),
    (5, 0),
    (0, 255),
    (255, 5),
];

#[test]
fn the_order_of_refusals() {
    let tables = trial_tables();
    let (basic, other, no_plan) = ([1, 2, 65], [1, 2, 66], [1, 2]);
    for pair in NO_PAIRS.into_iter().chain([(1, 2)]) {
        // The tables' faults, with every other fault there too.
        for plan in [&basic[..], &other, &no_plan, &[]] {
            refused(&[], plan, pair, 1, 0);
            refused(&tables[1..], plan, pair, 1, 0);
            refused(&[&tables[..], &[0]].concat(), plan, pair, 1, 0);
            for (index, byte, number, place) in TRIAL_FAULTS {
                let mut damaged = tables;
                damaged[index] = byte;
                refused(&damaged, plan, pair, number, place);
            }
        }
        // The plan's faults, with every fault behind them.
        refused(&tables, &[], pair, 11, 0);
        refused(&tables, &[1; LONGEST_PLAN + 1], pair, 11, 0);
        refused(&tables, &[1, 5, 66], pair, 12, 1);
        refused(&tables, &[1, 66], pair, 13, 1);
        refused(&tables, &no_plan, pair, 14, 0);
    }
    // 73 before 70, and 73.
    for pair in NO_PAIRS {
        refused(&tables, &other, pair, 73, 0);
        refused(&tables, &basic, pair, 73, 0);
        refused(&tables, &[0], pair, 73, 0);
    }
    // 70, and an answer.
    refused(&tables, &other, (1, 2), 70, 0);
    assert_eq!(asked(&basic, 1, 2), Yes);
}

#[test]
fn the_places_of_70_and_73() {
    let tables = trial_tables();
    for (plan, second, number) in [([1, 2, 66], 2, 70), ([1, 2, 65], 1, 73)] {
        let refusal = precedes(&tables, &plan, 1, second).unwrap_err();
        assert_eq!(
            (refusal.number(), refusal.place()),
            (number, Place::Nowhere)
        );
        let told = format!("refused {number} 0: {}", refusal.reason());
        assert_eq!(refusal.to_string(), told);
    }
}

#[test]
fn every_pair_of_bytes() {
    let tables = trial_tables();
    let pairs = (0..=255).flat_map(|first| (0..=255).map(move |second| (first, second)));
    for (first, second) in pairs {
        let inside = [first, second].iter().all(|byte| (1..=4).contains(byte));
        if inside && first != second {
            let wanted = match (first, second) {
                (_, 1) => No { at: 0 },
                (3 | 4, 2) => No { at: 1 },
                _ => Yes,
            };
            assert_eq!(asked(&[1, 2, 65], first, second), wanted);
            refused(&tables, &[1, 2, 66], (first, second), 70, 0);
        } else {
            refused(&tables, &[1, 2, 65], (first, second), 73, 0);
            refused(&tables, &[1, 2, 66], (first, second), 73, 0);
        }
    }
}

#[test]
fn as_many_actions_as_there_are() {
    // Tables of n actions in which nothing happens: n is inside, and n + 1 is outside.
    for n in [1, 2, 3, 30, 31] {
        let mut tables = [0; TABLES_LENGTH];
        tables[0] = n;
        tables[1026..1026 + n as usize].fill(1);
        assert_eq!(judge_tables(&tables), Ok(()));
        refused(&tables, &[n], (n, n), 73, 0);
        refused(&tables, &[n], (n, n + 1), 73, 0);
        refused(&tables, &[n], (n + 1, n), 73, 0);
        for other in 1..n {
            assert_eq!(asked_under(&tables, &[n, other, 65], n, other), Yes);
            let answer = asked_under(&tables, &[n, other, 65], other, n);
            assert_eq!(answer, No { at: 0 });
        }
    }
}

#[test]
fn plans_that_are_not_basic() {
    for plan in NOT_BASIC {
        refused(&trial_tables(), plan, (1, 2), 70, 0);
        refused(&trial_tables(), plan, (4, 3), 70, 0);
    }
}

/// A chain of as many words as can be: an action over and over, each followed by all behind it,
/// and others at some places among them.
fn deep(usual: u8, others: &[(usize, u8)]) -> Vec<u8> {
    let mut plan = vec![usual; LONGEST_PLAN / 2];
    others
        .iter()
        .for_each(|&(place, action)| plan[place] = action);
    plan.resize(LONGEST_BASIC, 65);
    plan
}

#[test]
fn the_longest_chains() {
    let last = LONGEST_PLAN / 2 - 1;
    // The second all along, with the first nowhere, before all of it, and too late.
    assert_eq!(asked(&deep(2, &[]), 1, 2), No { at: 0 });
    assert_eq!(asked(&deep(2, &[(0, 1)]), 1, 2), Yes);
    assert_eq!(asked(&deep(2, &[(1, 1)]), 1, 2), No { at: 0 });
    assert_eq!(asked(&deep(2, &[(last, 1)]), 1, 2), No { at: 0 });
    assert_eq!(asked(&deep(2, &[]), 2, 1), Yes);
    // The second at the end, with the first at the other end, right before it, and nowhere.
    assert_eq!(asked(&deep(3, &[(0, 1), (last, 2)]), 1, 2), Yes);
    assert_eq!(asked(&deep(3, &[(last - 1, 1), (last, 2)]), 1, 2), Yes);
    assert_eq!(asked(&deep(3, &[(last, 2)]), 1, 2), No { at: last });
    let late = deep(3, &[(last - 1, 2), (last, 1)]);
    assert_eq!(asked(&late, 1, 2), No { at: last - 1 });
    // In the middle, and into a dead stop.
    let middle = [(4000, 2), (4001, 1), (last, 2)];
    assert_eq!(asked(&deep(3, &middle), 1, 2), No { at: 4000 });
    assert_eq!(asked(&deep(2, &[(0, 1), (last, 0)]), 1, 2), Yes);
    assert_eq!(asked(&deep(2, &[(last, 0)]), 1, 2), No { at: 0 });
    // One word more: not basic; two words more: no plan.
    let tables = trial_tables();
    let mut plan = deep(2, &[(0, 1)]);
    plan.push(70);
    refused(&tables, &plan, (1, 2), 70, 0);
    refused(&tables, &plan, (2, 2), 73, 0);
    plan.push(70);
    refused(&tables, &plan, (2, 2), 11, 0);
}

/// A sum of these plans, grouped to the left and to the right; and in both the place of a word of
/// one of them.
fn sums(summands: &[[u8; 3]], at: usize, word: usize) -> [(Vec<u8>, usize); 2] {
    let mut left = summands[0].to_vec();
    for summand in &summands[1..] {
        left.extend(summand);
        left.push(64);
    }
    let mut right = summands.concat();
    right.resize(left.len(), 64);
    // To the left, a sign stands behind each summand but the first.
    let signs = at.saturating_sub(1);
    [(left, 3 * at + signs + word), (right, 3 * at + word)]
}

#[test]
fn the_longest_sums() {
    // 1·2 + 1·2 + …, with another summand somewhere: 3·2, 2·1, 2·δ, and 1·δ, which has no 2.
    let count = LONGEST_PLAN / 4;
    for at in [0, 1, 2, 2000, count - 2, count - 1] {
        for (unusual, word) in [
            ([3, 2, 65], Some(1)),
            ([2, 1, 65], Some(0)),
            ([2, 0, 65], Some(0)),
            ([1, 0, 65], None),
        ] {
            let mut summands = vec![[1, 2, 65]; count];
            summands[at] = unusual;
            for (plan, place) in sums(&summands, at, word.unwrap_or(0)) {
                assert_eq!(plan.len(), LONGEST_BASIC);
                let wanted = word.map_or(Yes, |_| No { at: place });
                assert_eq!(asked(&plan, 1, 2), wanted, "{at} {unusual:?}");
            }
        }
    }
    // Actions alone: 1 + 1 + … + 2.
    let mut flat = vec![1];
    while flat.len() < LONGEST_BASIC {
        flat.extend([1, 64]);
    }
    let last = LONGEST_BASIC - 2;
    flat[last] = 2;
    assert_eq!(asked(&flat, 1, 2), No { at: last });
    assert_eq!(asked(&flat, 2, 1), No { at: 0 });
    assert_eq!(asked(&flat, 1, 3), Yes);
    // 1·(2 + 2 + …): the first before all of them.
    let mut behind = vec![1, 2];
    while behind.len() < LONGEST_BASIC - 1 {
        behind.extend([2, 64]);
    }
    behind.push(65);
    assert_eq!(behind.len(), LONGEST_BASIC);
    assert_eq!(asked(&behind, 1, 2), Yes);
    assert_eq!(asked(&behind, 3, 2), No { at: 1 });
}

/// Whether a walk that is never brought the first action can take the second.
fn can_overtake(plan: &[u8], marks: &[u8], first: u8, second: u8) -> bool {
    (1..=4).filter(|&message| message != first).any(|message| {
        let (mut marks, mut finished) = (marks.to_vec(), false);
        let taken = walk(&trial_tables(), plan, &mut marks, message, &mut finished);
        taken.is_ok() && (message == second || can_overtake(plan, &marks, first, second))
    })
}

#[test]
fn no_exactly_where_a_walk_can_overtake() {
    let (mut random, mut answers) = (Random::new(105), [0; 2]);
    for _ in 0..400 {
        let size = random.between(1, 9);
        let plan = repeating_basic_plan(&mut random, 4, size);
        let mut marks = vec![0; plan.len()];
        marks[plan.len() - 1] = 1;
        for (first, second) in [(1, 2), (2, 1), (3, 2), (1, 4)] {
            let no = asked(&plan, first, second) != Yes;
            let overtaken = can_overtake(&plan, &marks, first, second);
            assert_eq!(no, overtaken, "{first} {second} {plan:?}");
            answers[usize::from(no)] += 1;
        }
    }
    assert!(answers.iter().all(|&count| count > 300), "{answers:?}");
}

#[test]
fn random_basic_plans() {
    let mut random = Random::new(106);
    // Yes, no at the first appearance, no at a later one.
    let mut kinds = [0; 3];
    for _ in 0..3000 {
        let most = random.pick(&[1, 5, 14, 40, 400]);
        let size = random.between(1, most);
        for plan in [
            basic_plan(&mut random, 4, size),
            repeating_basic_plan(&mut random, 4, size),
        ] {
            for (first, second) in [(1, 2), (4, 1)] {
                let answer = asked(&plan, first, second);
                let places = by_subplans(&plan, first, second);
                assert_eq!(answer, least(&places), "{first} {second} {plan:?}");
                let appears = plan.iter().position(|&word| word == second);
                kinds[match answer {
                    Yes => 0,
                    No { at } if appears == Some(at) => 1,
                    No { .. } => 2,
                }] += 1;
            }
        }
    }
    assert!(kinds.iter().all(|&kind| kind > 500), "{kinds:?}");
}

#[test]
fn random_cases() {
    let (mut random, mut kinds) = (Random::new(107), [0; 4]);
    for _ in 0..3000 {
        let case = precedence_case(&mut random);
        let (tables, plan, first, second) = (&case.tables, &case.plan, case.first, case.second);
        let basic = is_basic(tables, plan);
        let pair = |n: u8| (1..=n).contains(&first) && (1..=n).contains(&second);
        let kind = match basic {
            Err(refusal) => {
                let (number, place) = (refusal.number(), refusal.printed());
                refused(tables, plan, (first, second), number, place);
                0
            }
            Ok(_) if first == second || !pair(tables[0]) => {
                refused(tables, plan, (first, second), 73, 0);
                1
            }
            Ok(false) => {
                refused(tables, plan, (first, second), 70, 0);
                2
            }
            Ok(true) => {
                let places = by_subplans(plan, first, second);
                assert_eq!(asked_under(tables, plan, first, second), least(&places));
                3
            }
        };
        kinds[kind] += 1;
    }
    assert!(kinds.iter().all(|&kind| kind > 100), "{kinds:?}");
}

/// The tables of a station file, and the plan that its plan unfolds to.
fn unfolded(file: &[u8]) -> (Vec<u8>, Vec<u8>) {
    let (mut tables, mut plan) = (vec![0; TABLES_LENGTH], vec![0; LONGEST_PLAN]);
    let size = read_station(file, &mut tables, &mut plan).unwrap();
    let (mut a, mut b) = (vec![0; LONGEST_PLAN], vec![0; LONGEST_PLAN]);
    let mut list = vec![0; RECORD * 5000];
    let unfolded = unfold(&tables, &plan[..size], 5000, &mut list, &mut a, &mut b).unwrap();
    assert_eq!(unfolded.ending, Ending::Finished);
    let reached = unfolded.reached(&a, &b).to_vec();
    (tables, reached)
}

/// The benches with a crusted coin, and with a coin that may be too light, on some of whose paths
/// the balance shows no weight: 3 is the weight, 6 the photograph by the first camera, 12 the turn,
/// 9 the photograph of the next coin, and 13 the settling.
#[test]
fn the_late_weight() {
    let hasty = [
        &include_bytes!("../../../examples/bench/crusted-coin.station")[..],
        include_bytes!("../../../examples/bench/light-coin.station"),
    ];
    let waits = [
        &include_bytes!("../../../examples/bench/crusted-coin-hub-waits.station")[..],
        include_bytes!("../../../examples/bench/light-coin-hub-waits.station"),
    ];
    for file in hasty {
        let (tables, plan) = unfolded(file);
        let ask = |first, second| asked_under(&tables, &plan, first, second);
        // 6·(12·(9·…)): the first camera, the turn and the next coin's photograph overtake.
        assert_eq!(plan[..3], [6, 12, 9]);
        assert_eq!(ask(3, 6), No { at: 0 });
        assert_eq!(ask(3, 12), No { at: 1 });
        assert_eq!(ask(3, 9), No { at: 2 });
        // The weight comes when the balance has settled, and the next photograph after the turn.
        assert_eq!(ask(13, 3), Yes);
        assert_eq!(ask(12, 9), Yes);
        assert_eq!(ask(6, 12), Yes);
    }
    for file in waits {
        let (tables, plan) = unfolded(file);
        let ask = |first, second| asked_under(&tables, &plan, first, second);
        // The first camera alone may be before the weight.
        assert_eq!(ask(3, 6), No { at: 0 });
        assert_eq!(ask(3, 12), Yes);
        assert_eq!(ask(3, 9), Yes);
        assert_eq!(ask(13, 3), Yes);
    }
}

/// What a rewriting by laws 1 to 4 leads to is alike: the same yes or no, at places of its own.
#[test]
fn alike_plans_are_answered_alike() {
    let tables = trial_tables();
    let cases: [(&[u8], &[u8], [Precedence; 2]); 4] = [
        // x+y and y+x: 1·2 + 3·2.
        (
            &[1, 2, 65, 3, 2, 65, 64],
            &[1, 6, 0],
            [No { at: 4 }, No { at: 1 }],
        ),
        (&[1, 2, 65, 3, 4, 65, 64], &[1, 6, 0], [Yes, Yes]),
        // (x+y)+z and x+(y+z): 1·2 + 3 + 2.
        (
            &[1, 2, 65, 3, 64, 2, 64],
            &[3, 6, 0],
            [No { at: 5 }, No { at: 4 }],
        ),
        // x+x and x: 2 + 2.
        (&[2, 2, 64], &[4, 2, 0], [No { at: 0 }, No { at: 0 }]),
    ];
    for (plan, rewriting, wanted) in cases {
        let (mut a, mut b) = ([0; 64], [0; 64]);
        let replayed = check_rewriting(&tables, plan, &[0], rewriting, &mut a, &mut b).unwrap();
        assert_eq!(replayed.verdict, Verdict::EndDiffers);
        let end = replayed.reached(&a, &b);
        assert_eq!([asked(plan, 1, 2), asked(end, 1, 2)], wanted, "{plan:?}");
    }
}
