//! Precedence: whether one action comes before another on every path, the least place where it
//! does not, and what is refused.

use reference::plans::{
    counts, is_basic, judge, starts, subplan, CHOICE, LONGEST_PLAN, PRODUCT, THETA,
};
use reference::precedence::{precedes, Precedence};
use reference::random::plans::{basic_plan, every_plan, repeating_basic_plan, NOT_BASIC};
use reference::random::precedence::{precedence_case, PrecedenceCase};
use reference::random::tables::lawful_tables_over;
use reference::random::walks::walked_plan;
use reference::random::Random;
use reference::tables::trial_tables;
use reference::trees::{Forest, Tree};
use reference::Refusal;
use std::collections::{BTreeMap, BTreeSet};

/// The answer under the trial tables to a basic plan and two different actions of 1 to 4: the
/// least place, none where it is yes.
fn overtaking(plan: &[u8], first: u8, second: u8) -> Option<usize> {
    match precedes(&trial_tables(), plan, first, second) {
        Ok(Precedence::Yes) => None,
        Ok(Precedence::No { at }) => Some(at),
        Err(refusal) => panic!("{refusal:?} for {first} and {second} in {plan:?}"),
    }
}

/// Every pair of different actions of 1 to n.
fn pairs(n: u8) -> Vec<(u8, u8)> {
    let all = (1..=n).flat_map(|first| (1..=n).map(move |second| (first, second)));
    all.filter(|(first, second)| first != second).collect()
}

#[test]
fn the_first_before_the_second() {
    let cases: [(&[u8], Option<usize>); 26] = [
        // Neither, or the first alone.
        (&[0], None),
        (&[1], None),
        (&[3], None),
        (&[3, 0, 65], None),
        (&[1, 0, 65], None),
        // The second alone: as an action, before dead stop, and several times.
        (&[2], Some(0)),
        (&[2, 0, 65], Some(0)),
        (&[3, 2, 65], Some(1)),
        (&[3, 2, 0, 65, 65], Some(1)),
        (&[2, 2, 64], Some(0)),
        (&[3, 2, 64, 2, 64], Some(1)),
        // In a row: 1·2, 2·1, 1·(2·2), 2·(1·2), 3·(1·(4·(2·δ))).
        (&[1, 2, 65], None),
        (&[2, 1, 65], Some(0)),
        (&[1, 2, 2, 65, 65], None),
        (&[2, 1, 2, 65, 65], Some(0)),
        (&[3, 1, 4, 2, 0, 65, 65, 65, 65], None),
        // In another summand: 1 + 2, 1·3 + 2, 2 + 1, 3·(1·3 + 2).
        (&[1, 2, 64], Some(1)),
        (&[1, 3, 65, 2, 64], Some(3)),
        (&[2, 1, 64], Some(0)),
        (&[3, 1, 3, 65, 2, 64, 65], Some(4)),
        // Before a whole sum: 1·(2 + 3), 1·((3 + 2·2) + 2), 1·(3 + (4 + 2)).
        (&[1, 2, 3, 64, 65], None),
        (&[1, 3, 2, 2, 65, 64, 2, 64, 65], None),
        (&[1, 3, 4, 2, 64, 64, 65], None),
        // Some of the second behind the first: 2 + 1·2, 1·2 + 2, 1·2 + (3·2 + 2).
        (&[2, 1, 2, 65, 64], Some(0)),
        (&[1, 2, 65, 2, 64], Some(3)),
        (&[1, 2, 65, 3, 2, 65, 2, 64, 64], Some(4)),
    ];
    for (plan, at) in cases {
        assert_eq!(overtaking(plan, 1, 2), at, "{plan:?}");
    }
}

#[test]
fn every_pair_of_a_plan() {
    // (1·2 + 2·1) + 3, as the first trial tray ends.
    let plan = [1, 2, 65, 2, 1, 65, 64, 3, 64];
    for (first, second) in pairs(4) {
        let at = match (first, second) {
            (2, 1) => Some(0),
            (1, 2) => Some(3),
            (_, 1) => Some(0),
            (_, 2) => Some(1),
            (_, 3) => Some(7),
            (_, _) => None,
        };
        assert_eq!(overtaking(&plan, first, second), at, "{first} {second}");
    }
}

#[test]
fn paths_into_a_dead_stop_and_beginnings_count() {
    // 1·2 + 2·δ: only the path that is stuck has the second without the first.
    assert_eq!(overtaking(&[1, 2, 65, 2, 0, 65, 64], 1, 2), Some(3));
    assert_eq!(overtaking(&[1, 0, 65, 2, 0, 65, 64], 1, 2), Some(3));
    // The first with dead stop behind it is before nothing: 1·δ + 3·2.
    assert_eq!(overtaking(&[1, 0, 65, 3, 2, 65, 64], 1, 2), Some(4));
    // 2·(1·δ + 1·2): the second is there before either path goes on.
    assert_eq!(overtaking(&[2, 1, 0, 65, 1, 2, 65, 64, 65], 1, 2), Some(0));
    assert_eq!(overtaking(&[1, 2, 0, 65, 65], 1, 2), None);
}

/// A path of so many actions.
fn path(mut actions: Vec<u8>) -> Vec<u8> {
    actions.resize(2 * actions.len() - 1, PRODUCT);
    actions
}

#[test]
fn long_paths() {
    let half = LONGEST_PLAN / 2;
    let with = |changed: &[(usize, u8)], usual: u8| {
        let mut actions = vec![usual; half];
        changed
            .iter()
            .for_each(|&(at, action)| actions[at] = action);
        path(actions)
    };
    assert_eq!(overtaking(&with(&[], 2), 1, 2), Some(0));
    assert_eq!(overtaking(&with(&[], 2), 2, 1), None);
    assert_eq!(overtaking(&with(&[(0, 1)], 2), 1, 2), None);
    assert_eq!(overtaking(&with(&[(1, 1)], 2), 1, 2), Some(0));
    let last = half - 1;
    assert_eq!(overtaking(&with(&[(last, 2)], 3), 1, 2), Some(last));
    assert_eq!(overtaking(&with(&[(0, 1), (last, 2)], 3), 1, 2), None);
    let changed = [(last - 1, 1), (last, 2)];
    assert_eq!(overtaking(&with(&changed, 3), 1, 2), None);
    let changed = [(4000, 2), (4001, 1), (last, 2)];
    assert_eq!(overtaking(&with(&changed, 3), 1, 2), Some(4000));
    assert_eq!(overtaking(&with(&[(last, 0)], 2), 1, 2), Some(0));
    assert_eq!(overtaking(&with(&[(0, 1), (last, 0)], 2), 1, 2), None);
}

#[test]
fn long_sums() {
    let (usual, count) = ([1, 2, 65], LONGEST_PLAN / 4);
    for at in [0, 1, 2000, count - 1] {
        for unusual in [[2, 1, 65], [3, 2, 65], [2, 0, 65], [1, 0, 65]] {
            let mut summands = vec![usual; count];
            summands[at] = unusual;
            let right = [summands.concat(), vec![CHOICE; count - 1]].concat();
            let others = summands[1..]
                .iter()
                .map(|&[a, x, sign]| [a, x, sign, CHOICE]);
            let others: Vec<[u8; 4]> = others.collect();
            let left = [&summands[0], &others.concat()[..]].concat();
            assert_eq!([left.len(), right.len()], [LONGEST_PLAN - 1; 2]);
            // Grouped to the right, no sign stands between the summands.
            let found = unusual.iter().position(|&word| word == 2);
            let found = found.map(|word| [4 * at - at.min(1) + word, 3 * at + word]);
            assert_eq!(overtaking(&left, 1, 2), found.map(|[left, _]| left));
            assert_eq!(overtaking(&right, 1, 2), found.map(|[_, right]| right));
        }
    }
    // 1·(2 + 2 + …), with one word less than the longest plan has.
    let mut plan = vec![1, 2];
    while plan.len() < LONGEST_PLAN - 2 {
        plan.extend([2, CHOICE]);
    }
    plan.push(PRODUCT);
    assert_eq!(plan.len(), LONGEST_PLAN - 1);
    assert_eq!(overtaking(&plan, 1, 2), None);
    assert_eq!(overtaking(&plan, 3, 2), Some(1));
    assert_eq!(overtaking(&plan, 2, 1), Some(0));
}

/// What is answered instead of yes or no, under the trial tables.
fn refused(plan: &[u8], first: u8, second: u8) -> Refusal {
    precedes(&trial_tables(), plan, first, second).unwrap_err()
}

#[test]
fn every_pair_of_bytes() {
    for (plan, basic) in [(&[1, 2, 65][..], true), (&[1, 2, 66], false)] {
        for first in 0..=255 {
            for second in 0..=255 {
                let answer = precedes(&trial_tables(), plan, first, second);
                let inside = [first, second].iter().all(|a| (1..=4).contains(a));
                let wanted = match first != second && inside {
                    false => Err(Refusal::nowhere(73)),
                    true if !basic => Err(Refusal::nowhere(70)),
                    true => Ok(match (first, second) {
                        (_, 1) => Precedence::No { at: 0 },
                        (3 | 4, 2) => Precedence::No { at: 1 },
                        _ => Precedence::Yes,
                    }),
                };
                assert_eq!(answer, wanted, "{first} {second}");
            }
        }
    }
}

#[test]
fn actions_outside_1_to_n() {
    let mut random = Random::new(91);
    for n in [1, 2, 3, 30, 31] {
        let tables = lawful_tables_over(&mut random, n);
        for byte in 0..=255 {
            // The plan `1`: the one action of it, and the other byte before and behind it.
            let other = byte > 1 && byte <= n;
            let before = precedes(&tables, &[1], byte, 1);
            let behind = precedes(&tables, &[1], 1, byte);
            let equal = precedes(&tables, &[1], byte, byte);
            let wanted = |answer| {
                if other {
                    Ok(answer)
                } else {
                    Err(Refusal::nowhere(73))
                }
            };
            assert_eq!(before, wanted(Precedence::No { at: 0 }), "{byte} of {n}");
            assert_eq!(behind, wanted(Precedence::Yes), "{byte} of {n}");
            assert_eq!(equal, Err(Refusal::nowhere(73)), "{byte} of {n}");
        }
    }
}

#[test]
fn plans_that_are_not_basic() {
    for plan in NOT_BASIC {
        for (first, second) in pairs(4) {
            assert_eq!(refused(plan, first, second), Refusal::nowhere(70));
            // Equal actions, and one outside 1 to n, are asked for before.
            for (first, second) in [(first, first), (0, second), (first, 5), (64, 65)] {
                assert_eq!(refused(plan, first, second), Refusal::nowhere(73));
            }
        }
    }
}

#[test]
fn the_order_of_refusals() {
    let (tables, mut wrong) = (trial_tables(), trial_tables());
    wrong[0] = 32;
    let (basic, other, no_plan) = ([1, 2, 65], [1, 2, 66], [1, 2]);
    let refuses = |tables: &[u8], plan: &[u8], first, second, number| {
        let answer = precedes(tables, plan, first, second);
        let found = answer.map_or_else(|refusal| refusal.number, |_| 0);
        assert_eq!(found, number, "{first} {second} {plan:?}");
    };
    // Every fault, and then one after the other mended.
    for (first, second) in [(2, 2), (0, 0), (0, 1), (1, 0), (5, 1), (1, 5), (255, 64)] {
        refuses(&[], &no_plan, first, second, 1);
        refuses(&wrong[1..], &no_plan, first, second, 1);
        refuses(&wrong, &no_plan, first, second, 2);
        refuses(&wrong, &basic, first, second, 2);
        refuses(&tables, &[], first, second, 11);
        refuses(&tables, &[1, 5], first, second, 12);
        refuses(&tables, &[1, 65], first, second, 13);
        refuses(&tables, &no_plan, first, second, 14);
        refuses(&tables, &other, first, second, 73);
        refuses(&tables, &basic, first, second, 73);
    }
    refuses(&wrong, &basic, 1, 2, 2);
    refuses(&tables, &no_plan, 1, 2, 14);
    refuses(&tables, &other, 1, 2, 70);
    refuses(&tables, &basic, 1, 2, 0);
    // A plan's fault has its place; 70 and 73 have none.
    assert_eq!(refused(&[1, 5, 65], 1, 1), Refusal::at_byte(12, 1));
    assert_eq!(refused(&[1, 64, 65], 1, 1), Refusal::at_byte(13, 1));
    for number in [70, 73] {
        assert_eq!(Refusal::nowhere(number).printed(), 0);
    }
}

#[test]
fn plans_of_16_384_words_and_more() {
    let mut plan = path(vec![2; LONGEST_PLAN / 2]);
    assert_eq!(overtaking(&plan, 1, 2), Some(0));
    plan.push(THETA);
    assert_eq!(refused(&plan, 1, 2), Refusal::nowhere(70));
    assert_eq!(refused(&plan, 2, 2), Refusal::nowhere(73));
    plan.push(THETA);
    assert_eq!(refused(&plan, 1, 2), Refusal::nowhere(11));
    assert_eq!(refused(&plan, 2, 2), Refusal::nowhere(11));
}

/// The actions before a word of a basic plan, from the products that it stands in behind the
/// first factor; the outermost one comes first.
fn path_to(plan: &[u8], place: usize) -> Vec<u8> {
    let products = (place..plan.len()).rev().filter(|&p| plan[p] == PRODUCT);
    let first_factors = products.map(|p| p + 1 - subplan(plan, p).len());
    let before = first_factors.filter(|&first| first < place);
    before.map(|first| plan[first]).collect()
}

/// All paths of a tree and their beginnings, the empty one not counted.
fn beginnings(forest: &Forest, tree: Tree) -> BTreeSet<Vec<u8>> {
    let mut found = BTreeSet::new();
    let mut waiting = vec![(Vec::new(), tree)];
    while let Some((seen, tree)) = waiting.pop() {
        for &(action, further) in forest.branches(tree) {
            let longer = [&seen[..], &[action]].concat();
            waiting.extend(further.map(|further| (longer.clone(), further)));
            found.insert(longer);
        }
    }
    found
}

/// Whether the second action appears on a path with the first nowhere before it.
fn overtakes(path: &[u8], first: u8, second: u8) -> bool {
    let appearances = (0..path.len()).filter(|&index| path[index] == second);
    appearances
        .into_iter()
        .any(|index| !path[..index].contains(&first))
}

/// Compares the answers to a basic plan over 1 to n with the paths of its tree, and the places
/// with the paths to them. For which pairs it is yes.
fn compare(forest: &mut Forest, plan: &[u8], n: u8) -> Vec<bool> {
    let tree = forest.tree_of(plan);
    let paths = beginnings(forest, tree);
    let live = (0..plan.len()).filter(|&place| (1..=31).contains(&plan[place]));
    let words: Vec<(usize, Vec<u8>)> = live.map(|place| (place, path_to(plan, place))).collect();
    // One path leads to each word, and these are all beginnings that there are.
    let of_words = words
        .iter()
        .map(|(place, path)| [&path[..], &[plan[*place]]].concat());
    assert_eq!(of_words.collect::<BTreeSet<_>>(), paths, "{plan:?}");
    let answers = pairs(n).into_iter().map(|(first, second)| {
        let overtaken = paths.iter().any(|path| overtakes(path, first, second));
        let bare =
            |(place, path): &&(usize, Vec<u8>)| plan[*place] == second && !path.contains(&first);
        let least = words.iter().find(bare).map(|(place, _)| *place);
        assert_eq!(overtaking(plan, first, second), least, "{plan:?}");
        assert_eq!(least.is_some(), overtaken, "{first} {second} {plan:?}");
        assert_eq!(bare_places(plan, first, second).first(), least.as_ref());
        !overtaken
    });
    answers.collect()
}

/// All places of a basic plan at which the second action has none of the first before it, told
/// from the operands up: a product takes the first factor's place if it is one, and those of the
/// second factor unless the first factor is the first action. They are told in order.
fn bare_places(plan: &[u8], first: u8, second: u8) -> Vec<usize> {
    let starts = starts(plan);
    let mut waiting: Vec<Vec<usize>> = Vec::new();
    for (place, &word) in plan.iter().enumerate() {
        if word != CHOICE && word != PRODUCT {
            waiting.push(if word == second { vec![place] } else { vec![] });
            continue;
        }
        let (mut y, mut x) = (waiting.pop().unwrap(), waiting.pop().unwrap());
        if word == PRODUCT && plan[starts[place]] == first {
            y.clear();
        }
        if x.len() < y.len() {
            (x, y) = (y, x);
        }
        x.extend(y);
        waiting.push(x);
    }
    let mut bare = waiting.pop().unwrap();
    bare.sort_unstable();
    bare
}

#[test]
fn every_small_plan_and_every_pair() {
    let plans = (1..=9).flat_map(|size| every_plan(&[0, 1, 2, 3, 64, 65], size));
    let plans: Vec<Vec<u8>> = plans.filter(|plan| is_basic(plan)).collect();
    // By how many words are actions, dead stop among them: one to five.
    assert_eq!(plans.len(), 4 + 21 + 189 + 2142 + 27_216);
    let tables = trial_tables();
    let mut forest = Forest::new(&tables);
    let mut counts = [0, 0];
    let mut of_trees: BTreeMap<Tree, Vec<bool>> = BTreeMap::new();
    for plan in &plans {
        let answers = compare(&mut forest, plan, 4);
        for &yes in &answers {
            counts[usize::from(yes)] += 1;
        }
        // Plans of one tree are answered alike, but for the place.
        let tree = forest.tree_of(plan);
        let of_tree = of_trees.entry(tree).or_insert_with(|| answers.clone());
        assert_eq!(of_tree, &answers, "{plan:?}");
    }
    assert!(counts.iter().all(|&count| count > 100_000), "{counts:?}");
    assert!(of_trees.len() < plans.len() / 2, "{}", of_trees.len());
}

#[test]
fn random_plans_and_every_pair() {
    let (mut random, tables) = (Random::new(92), trial_tables());
    let mut counts = [0, 0];
    for _ in 0..1500 {
        let actions = random.between(1, 16);
        let plan = match random.once_in(2) {
            true => basic_plan(&mut random, 4, actions),
            false => repeating_basic_plan(&mut random, 4, actions),
        };
        let answers = compare(&mut Forest::new(&tables), &plan, 4);
        for &yes in &answers {
            counts[usize::from(yes)] += 1;
        }
    }
    assert!(counts.iter().all(|&count| count > 4000), "{counts:?}");
}

#[test]
fn sums_and_products_of_plans() {
    let mut random = Random::new(93);
    let mut found = [0, 0];
    for _ in 0..1500 {
        let [x, y] = [(); 2].map(|_| walked_plan(&mut random, 4));
        let (first, second) = random.pick(&pairs(4));
        let sum = [&x[..], &y, &[CHOICE]].concat();
        if sum.len() > LONGEST_PLAN || x == [0] || y == [0] {
            continue;
        }
        let [of_x, of_y] = [&x, &y].map(|plan| overtaking(plan, first, second));
        let of_sum = of_x.or(of_y.map(|at| x.len() + at));
        assert_eq!(overtaking(&sum, first, second), of_sum, "{sum:?}");
        found[usize::from(of_sum.is_none())] += 1;
        for action in 1..=4 {
            let product = [&[action], &x[..], &[PRODUCT]].concat();
            let of_product = match action {
                _ if action == first => None,
                _ if action == second => Some(0),
                _ => of_x.map(|at| at + 1),
            };
            assert_eq!(overtaking(&product, first, second), of_product);
        }
    }
    assert!(found.iter().all(|&count| count > 200), "{found:?}");
}

/// Those kinds that are there.
fn kinds(all: &[(&'static str, bool)]) -> Vec<&'static str> {
    let here = all.iter().filter(|(_, here)| *here);
    here.map(|(kind, _)| *kind).collect()
}

/// The kinds that a case is one of, after comparing its answer.
fn kinds_of(case: &PrecedenceCase) -> Vec<&'static str> {
    let PrecedenceCase {
        tables,
        plan,
        first,
        second,
    } = case;
    if let Err(refusal) = judge(tables, plan) {
        assert_eq!(case.run(), Err(refusal));
        return judged_kinds(case, refusal.number);
    }
    let outside = |action: &u8| *action == 0 || *action > tables[0];
    if first == second || outside(first) || outside(second) {
        assert_eq!(case.run(), Err(Refusal::nowhere(73)));
        return refused_kinds(case);
    }
    if !is_basic(plan) {
        assert_eq!(case.run(), Err(Refusal::nowhere(70)));
        let longest = plan.len() == LONGEST_PLAN;
        return kinds(&[("70", true), ("70, 16,384 words", longest)]);
    }
    let bare = bare_places(plan, *first, *second);
    let (answer, mut found) = match bare[..] {
        [] => (Precedence::Yes, yes_kinds(case)),
        [at, ..] => (Precedence::No { at }, no_kinds(case, &bare)),
    };
    assert_eq!(case.run(), Ok(answer), "{first} {second} {plan:?}");
    found.extend(long_kinds(plan, bare.is_empty()));
    found
}

/// The kinds of a case whose tables or plan are refused.
fn judged_kinds(case: &PrecedenceCase, number: u8) -> Vec<&'static str> {
    let names = [
        "", "1", "2", "3", "4", "5", "6", "7", "8", "", "", "11", "12", "13", "14",
    ];
    let (low, high) = (case.first.min(case.second), case.first.max(case.second));
    // Whatever n would be.
    let pair_refused = low == high || low == 0 || high > 31;
    kinds(&[
        (names[number as usize], true),
        ("1 to 8, pair refused", number < 11 && pair_refused),
        ("11 to 14, pair refused", number >= 11 && pair_refused),
        ("11, 16,385 words", case.plan.len() == LONGEST_PLAN + 1),
    ])
}

/// The kinds of a case that is refused with 73.
fn refused_kinds(case: &PrecedenceCase) -> Vec<&'static str> {
    let (n, first, second) = (case.tables[0], case.first, case.second);
    let is_inside = |action| (1..=n).contains(&action);
    let inside = [first, second].map(is_inside);
    let (basic, length) = (is_basic(&case.plan), case.plan.len());
    kinds(&[
        ("73, equal", first == second && inside == [true; 2]),
        ("73, equal and outside", first == second && !inside[0]),
        ("73, first dead stop alone", first == 0 && inside[1]),
        ("73, second dead stop alone", second == 0 && inside[0]),
        ("73, first above n alone", first > n && inside[1]),
        ("73, second above n alone", second > n && inside[0]),
        ("73, first n + 1", first == n + 1),
        ("73, second n + 1", second == n + 1),
        ("73, first above 31", first > 31),
        ("73, second above 31", second > 31),
        ("73, both outside", first != second && inside == [false; 2]),
        ("73, one action", n == 1),
        ("73, equal, not basic", first == second && !basic),
        ("73, outside, not basic", first != second && !basic),
        ("73, 16,383 words", length == LONGEST_PLAN - 1),
        ("73, 16,384 words", length == LONGEST_PLAN),
    ])
}

/// The places of an action.
fn places(plan: &[u8], action: u8) -> Vec<usize> {
    (0..plan.len())
        .filter(|&place| plan[place] == action)
        .collect()
}

/// The kinds of a case that is answered yes.
fn yes_kinds(case: &PrecedenceCase) -> Vec<&'static str> {
    let plan = &case.plan;
    let (of_first, of_second) = (places(plan, case.first), places(plan, case.second));
    let several = of_second.len() > 1;
    kinds(&[
        (
            "yes, second nowhere",
            of_second.is_empty() && !of_first.is_empty(),
        ),
        (
            "yes, neither anywhere",
            of_second.is_empty() && of_first.is_empty(),
        ),
        ("yes, one appearance", of_second.len() == 1),
        ("yes, several", several),
        (
            "yes, several behind the first word",
            several && of_first == [0],
        ),
        (
            "yes, several in a sum",
            several && plan.ends_with(&[CHOICE]),
        ),
        (
            "yes, first later too",
            !of_second.is_empty() && of_first.last() > of_second.first(),
        ),
        ("yes, dead stop", !of_second.is_empty() && plan.contains(&0)),
        (
            "yes, 31 the first",
            case.first == 31 && !of_second.is_empty(),
        ),
        (
            "yes, 31 the second",
            case.second == 31 && !of_second.is_empty(),
        ),
    ])
}

/// The words behind a word of a basic plan on its paths: the second factor, where it is the first
/// factor of a product.
fn behind<'p>(plan: &'p [u8], starts: &[usize], place: usize) -> &'p [u8] {
    let is_product = |p: &usize| plan[*p] == PRODUCT && starts[*p] == place;
    let product = (place..plan.len()).find(is_product);
    product.map_or(&[], |p| &plan[place + 1..p])
}

/// The kinds of a case that is answered no, with all places that have the first nowhere before.
fn no_kinds(case: &PrecedenceCase, bare: &[usize]) -> Vec<&'static str> {
    let (plan, at) = (&case.plan, bare[0]);
    let (of_first, of_second) = (places(plan, case.first), places(plan, case.second));
    let starts = starts(plan);
    let followed = behind(plan, &starts, at);
    let here_behind = places(followed, case.first).len();
    let last_action = plan.iter().rposition(|&word| (1..=31).contains(&word));
    let is_stuck = |&place: &usize| {
        let behind = behind(plan, &starts, place);
        !behind.is_empty() && counts(behind).orders == 0
    };
    let stuck = plan.len() < 200 && bare.iter().all(is_stuck);
    let elsewhere = !of_first.is_empty() && here_behind == 0;
    kinds(&[
        ("no, at 0", at == 0),
        ("no, in the middle", at > 0 && Some(at) != last_action),
        ("no, at the last action", at > 0 && Some(at) == last_action),
        ("no, above a byte", at > 255),
        ("no, an earlier one has it", of_second[0] < at),
        (
            "no, a later one has it",
            of_second.len() > bare.len() && of_second[0] == at,
        ),
        ("no, several", bare.len() > 1),
        ("no, one alone", of_second.len() == 1),
        ("no, one of several", bare.len() == 1 && of_second.len() > 1),
        ("no, first nowhere", of_first.is_empty()),
        (
            "no, first behind it alone",
            here_behind > 0 && here_behind == of_first.len(),
        ),
        ("no, first in other summands alone", elsewhere),
        (
            "no, first at an earlier place",
            of_first.first().is_some_and(|&place| place < at),
        ),
        ("no, a first factor", !followed.is_empty()),
        ("no, the end of a path", followed.is_empty()),
        ("no, on stuck paths alone", stuck),
        ("no, 31 the first", case.first == 31),
        ("no, 31 the second", case.second == 31),
    ])
}

/// The kinds of a case whose plan has 16,383 words.
fn long_kinds(plan: &[u8], yes: bool) -> Vec<&'static str> {
    let longest = plan.len() == LONGEST_PLAN - 1;
    let choices = places(plan, CHOICE).len();
    let (deep, wide) = (
        longest && choices == 0,
        longest && choices >= LONGEST_PLAN / 4 - 1,
    );
    let right = plan.ends_with(&[CHOICE; 9]);
    kinds(&[
        ("16,383 words deep, yes", deep && yes),
        ("16,383 words deep, no", deep && !yes),
        ("16,383 words to the left, yes", wide && !right && yes),
        ("16,383 words to the left, no", wide && !right && !yes),
        ("16,383 words to the right, yes", wide && right && yes),
        ("16,383 words to the right, no", wide && right && !yes),
    ])
}

/// The kinds of cases with a refusal of tables or plan, or with a plan that is seldom drawn.
const SELDOM: [&str; 27] = [
    "1",
    "2",
    "3",
    "4",
    "5",
    "6",
    "7",
    "8",
    "11",
    "11, 16,385 words",
    "12",
    "13",
    "14",
    "70, 16,384 words",
    "73, 16,383 words",
    "73, 16,384 words",
    "16,383 words deep, yes",
    "16,383 words deep, no",
    "16,383 words to the left, yes",
    "16,383 words to the left, no",
    "16,383 words to the right, yes",
    "16,383 words to the right, no",
    "no, above a byte",
    "yes, 31 the first",
    "yes, 31 the second",
    "no, 31 the first",
    "no, 31 the second",
];

/// The other kinds.
const OFTEN: [&str; 40] = [
    "1 to 8, pair refused",
    "11 to 14, pair refused",
    "70",
    "73, equal",
    "73, equal and outside",
    "73, first dead stop alone",
    "73, second dead stop alone",
    "73, first above n alone",
    "73, second above n alone",
    "73, first n + 1",
    "73, second n + 1",
    "73, first above 31",
    "73, second above 31",
    "73, both outside",
    "73, one action",
    "73, equal, not basic",
    "73, outside, not basic",
    "yes, second nowhere",
    "yes, neither anywhere",
    "yes, one appearance",
    "yes, several",
    "yes, several behind the first word",
    "yes, several in a sum",
    "yes, first later too",
    "yes, dead stop",
    "no, at 0",
    "no, in the middle",
    "no, at the last action",
    "no, an earlier one has it",
    "no, a later one has it",
    "no, several",
    "no, one alone",
    "no, one of several",
    "no, first nowhere",
    "no, first behind it alone",
    "no, first in other summands alone",
    "no, first at an earlier place",
    "no, a first factor",
    "no, the end of a path",
    "no, on stuck paths alone",
];

#[test]
fn random_cases_reach_every_kind() {
    let mut random = Random::new(94);
    let mut counts: BTreeMap<&'static str, usize> = BTreeMap::new();
    for _ in 0..3000 {
        for kind in kinds_of(&precedence_case(&mut random)) {
            *counts.entry(kind).or_default() += 1;
        }
    }
    let rarer = |kind: &&str, least| counts.get(*kind).is_none_or(|&count| count < least);
    let mut missing: Vec<&str> = SELDOM.into_iter().filter(|kind| rarer(kind, 3)).collect();
    missing.extend(OFTEN.into_iter().filter(|kind| rarer(kind, 20)));
    assert!(missing.is_empty(), "{missing:?} {counts:?}");
    assert_eq!(counts.len(), SELDOM.len() + OFTEN.len());
}

#[test]
fn the_same_seed_gives_the_same_cases() {
    let cases = |seed| {
        let mut random = Random::new(seed);
        let mut next = || {
            let case = precedence_case(&mut random);
            (case.tables, case.plan, case.first, case.second)
        };
        (0..50).map(|_| next()).collect::<Vec<_>>()
    };
    assert_eq!(cases(1), cases(1));
    assert_ne!(cases(1), cases(2));
}
