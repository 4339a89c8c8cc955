//! Fixed forms: of small plans by hand, of every small plan against its tree, of plans that are
//! alike and of plans that are not; the areas, and what is refused.

use reference::forms::{fix_form, form};
use reference::laws::{apply, laws_at};
use reference::plans::{
    is_basic, judge, starts, term, words, Term, CHOICE, LONGEST_PLAN, PRODUCT, THETA,
};
use reference::random::forms::{altered, altered_case, form_case, redrawn, redrawn_case, FormCase};
use reference::random::plans::{every_plan, repeating_basic_plan, NOT_BASIC};
use reference::random::tables::TRIAL_FAULTS;
use reference::random::walks::walked_plan;
use reference::random::Random;
use reference::tables::trial_tables;
use reference::trees::{alike, Forest, Tree};
use reference::Refusal;
use std::cmp::Ordering;
use std::collections::{BTreeMap, BTreeSet};

/// A byte that an area holds afterwards only where it kept it.
const OLD: u8 = 0xEE;

/// A case with an area of so many old bytes.
fn case(tables: &[u8], plan: &[u8], area: usize) -> FormCase {
    FormCase {
        tables: tables.to_vec(),
        plan: plan.to_vec(),
        area: vec![OLD; area],
    }
}

/// The form of a basic plan under the trial tables, in an area that is longer than the plan; behind
/// the form it is zero.
fn fixed(plan: &[u8]) -> Vec<u8> {
    let mut outcome = case(&trial_tables(), plan, plan.len() + 9).run();
    let length = outcome.answer.unwrap();
    assert!(outcome.area[length..].iter().all(|&byte| byte == 0));
    outcome.area.truncate(length);
    outcome.area
}

#[test]
fn forms_of_small_plans() {
    let cases: [(&[u8], &[u8]); 20] = [
        // In form already.
        (&[0], &[0]),
        (&[1], &[1]),
        (&[1, 0, 65], &[1, 0, 65]),
        (&[1, 2, 64, 3, 64], &[1, 2, 64, 3, 64]),
        // Equal summands: of two, of three in both groupings, and a product.
        (&[1, 1, 64], &[1]),
        (&[1, 1, 64, 1, 64], &[1]),
        (&[1, 1, 1, 64, 64], &[1]),
        (&[1, 0, 65, 1, 0, 65, 64], &[1, 0, 65]),
        // The order, and the grouping.
        (&[2, 1, 64], &[1, 2, 64]),
        (&[1, 2, 3, 64, 64], &[1, 2, 64, 3, 64]),
        (&[3, 2, 1, 64, 64], &[1, 2, 64, 3, 64]),
        (&[4, 3, 64, 2, 1, 64, 64], &[1, 2, 64, 3, 64, 4, 64]),
        (&[2, 1, 2, 64, 64], &[1, 2, 64]),
        // 1 and 1·δ are two summands, and so are 1·2 and 1·3.
        (&[1, 0, 65, 1, 64], &[1, 1, 0, 65, 64]),
        (&[1, 3, 65, 1, 2, 65, 64], &[1, 2, 65, 1, 3, 65, 64]),
        // In a remainder: 1·(3 + 2), 1·(2·(3 + 1)).
        (&[1, 3, 2, 64, 65], &[1, 2, 3, 64, 65]),
        (&[1, 2, 3, 1, 64, 65, 65], &[1, 2, 1, 3, 64, 65, 65]),
        // Equal in form alone: 1·(2 + 3) + 1·(3 + 2), and 1·(2 + 2) + 1·2.
        (&[1, 2, 3, 64, 65, 1, 3, 2, 64, 65, 64], &[1, 2, 3, 64, 65]),
        (&[1, 2, 2, 64, 65, 1, 2, 65, 64], &[1, 2, 65]),
        // It is the bytes of the form that are compared: 1·(3 + 2) goes before 1·(2·4), as
        // 1 2 3 64 65 does before 1 2 4 65 65.
        (
            &[1, 2, 4, 65, 65, 1, 3, 2, 64, 65, 64],
            &[1, 2, 3, 64, 65, 1, 2, 4, 65, 65, 64],
        ),
    ];
    for (plan, wanted) in cases {
        assert_eq!(fixed(plan), wanted, "{plan:?}");
        assert_eq!(fixed(wanted), wanted, "{plan:?}");
    }
}

#[test]
fn the_plans_of_case_12() {
    let (shared, apart) = ([1, 2, 3, 64, 65], [1, 2, 65, 1, 3, 65, 64]);
    assert_eq!(fixed(&shared), shared);
    assert_eq!(fixed(&apart), apart);
    assert_eq!(fixed(&[1, 2, 64]), [1, 2, 64]);
    assert_eq!(fixed(&[2, 1, 64, 1, 64]), [1, 2, 64]);
    // Case 1 as it is reached: (1·2 + 2·1) + 3.
    let reached = [1, 2, 65, 2, 1, 65, 64, 3, 64];
    assert_eq!(fixed(&reached), reached);
}

/// Summands in form, in ascending order.
const ASCENDING: [&[u8]; 12] = [
    &[1],
    &[1, 0, 65],
    &[1, 1, 0, 65, 65],
    &[1, 1, 1, 2, 65, 64, 65],
    &[1, 1, 1, 65, 65],
    &[1, 1, 2, 64, 65],
    &[1, 1, 65],
    &[1, 2, 65],
    &[1, 4, 65],
    &[2],
    &[2, 0, 65],
    &[4],
];

#[test]
fn the_order_of_two_summands() {
    for (index, low) in ASCENDING.iter().enumerate() {
        for high in &ASCENDING[index + 1..] {
            let wanted = [low, *high, &[CHOICE]].concat();
            assert_eq!(fixed(&wanted), wanted);
            assert_eq!(fixed(&[high, *low, &[CHOICE]].concat()), wanted);
            // The same in a remainder.
            let remainder = [&[3], *high, low, &[CHOICE, PRODUCT]].concat();
            assert_eq!(fixed(&remainder), [&[3], &wanted[..], &[PRODUCT]].concat());
        }
        assert_eq!(fixed(&[low, *low, &[CHOICE]].concat()), *low);
    }
}

#[test]
fn an_action_goes_before_a_product_that_begins_with_it() {
    let all: [&[u8]; 3] = [&[1], &[1, 2, 65], &[2]];
    let orders = [
        [0, 1, 2],
        [0, 2, 1],
        [1, 0, 2],
        [1, 2, 0],
        [2, 0, 1],
        [2, 1, 0],
    ];
    for order in orders {
        let [x, y, z] = order.map(|index| all[index]);
        for plan in [[x, y, &[64], z, &[64]], [x, y, z, &[64], &[64]]] {
            assert_eq!(fixed(&plan.concat()), [1, 1, 2, 65, 64, 2, 64]);
        }
    }
}

#[test]
fn many_summands() {
    let sum = |summands: &[&[u8]]| {
        let others = summands[1..].iter().map(|summand| [summand, &[64][..]]);
        [summands[0], &others.flatten().collect::<Vec<_>>().concat()].concat()
    };
    let wanted = sum(&ASCENDING);
    let mut backwards = ASCENDING;
    backwards.reverse();
    assert_eq!(fixed(&wanted), wanted);
    assert_eq!(fixed(&sum(&backwards)), wanted);
    let to_the_right = |summands: [&[u8]; 12]| [summands.concat(), vec![64; 11]].concat();
    assert_eq!(fixed(&to_the_right(ASCENDING)), wanted);
    assert_eq!(fixed(&to_the_right(backwards)), wanted);
    // Once more, and again in another order.
    let twice = [sum(&backwards), to_the_right(ASCENDING), vec![64]].concat();
    assert_eq!(fixed(&twice), wanted);
}

/// "in ascending order of their bytes, a shorter one first where it begins the longer".
fn order(x: &[u8], y: &[u8]) -> Ordering {
    let shorter = x.len().min(y.len());
    match (0..shorter).find(|&index| x[index] != y[index]) {
        Some(index) if x[index] < y[index] => Ordering::Less,
        Some(_) => Ordering::Greater,
        None if x.len() < y.len() => Ordering::Less,
        None if x.len() > y.len() => Ordering::Greater,
        None => Ordering::Equal,
    }
}

/// The form told from a tree alone: a branch is a summand, and what follows it is the remainder.
fn form_of_tree(forest: &Forest, tree: Tree) -> Vec<u8> {
    let summand = |&(a, further): &(u8, Option<Tree>)| match further {
        None => vec![a],
        Some(further) => [vec![a], form_of_tree(forest, further), vec![PRODUCT]].concat(),
    };
    let mut summands: Vec<Vec<u8>> = forest.branches(tree).iter().map(summand).collect();
    summands.sort_by(|x, y| order(x, y));
    let join = |x: Vec<u8>, y: Vec<u8>| [x, y, vec![CHOICE]].concat();
    summands.into_iter().reduce(join).unwrap_or(vec![0])
}

/// Whether a basic plan stands in form: its remainders do, and its sum is grouped to the left, each
/// summand standing before the next in their order.
fn in_form(plan: &Term) -> bool {
    let (mut backwards, mut rest) = (Vec::new(), plan);
    while let Term::Two(CHOICE, x, y) = rest {
        backwards.push(&**y);
        rest = x;
    }
    backwards.push(rest);
    let each = |summand: &&Term| match summand {
        Term::Action(_) => true,
        Term::Two(PRODUCT, _, x) => in_form(x),
        _ => false,
    };
    let ascend = |pair: &[&Term]| order(&words(pair[1]), &words(pair[0])) == Ordering::Less;
    backwards.iter().all(each) && backwards.windows(2).all(ascend)
}

#[test]
fn every_small_plan() {
    let plans = (1..=9).flat_map(|size| every_plan(&[0, 1, 2, 3, 64, 65], size));
    let plans: Vec<Vec<u8>> = plans.filter(|plan| is_basic(plan)).collect();
    assert_eq!(plans.len(), 4 + 21 + 189 + 2142 + 27_216);
    let tables = trial_tables();
    let mut forest = Forest::new(&tables);
    let mut of_trees: BTreeMap<Tree, Vec<u8>> = BTreeMap::new();
    let mut fixed_already = 0;
    for plan in &plans {
        let found = fixed(plan);
        assert_eq!(judge(&tables, &found), Ok(()), "{plan:?}");
        assert!(is_basic(&found) && in_form(&term(&found)), "{plan:?}");
        // The form's tree is the plan's, and the form is told by it.
        let tree = forest.tree_of(plan);
        assert_eq!(forest.tree_of(&found), tree, "{plan:?}");
        assert_eq!(form_of_tree(&forest, tree), found, "{plan:?}");
        // "the fixed form of a fixed form is itself", and no other plan is its own form.
        assert_eq!(fixed(&found), found, "{plan:?}");
        assert_eq!(found == *plan, in_form(&term(plan)), "{plan:?}");
        assert!(found.len() <= plan.len(), "{plan:?}");
        fixed_already += usize::from(found == *plan);
        // "equal fixed forms exactly when their trees are alike": one form to each tree.
        let of_tree = of_trees.entry(tree).or_insert_with(|| found.clone());
        assert_eq!(*of_tree, found, "{plan:?}");
    }
    let forms: BTreeSet<&Vec<u8>> = of_trees.values().collect();
    assert_eq!(forms.len(), of_trees.len());
    // A form is no longer than any plan of its tree, so each is among the plans.
    assert_eq!(fixed_already, forms.len());
    assert!(forms.len() < plans.len() / 2, "{}", forms.len());
}

#[test]
fn two_plans_have_one_form_exactly_when_they_are_alike() {
    let (mut random, tables) = (Random::new(111), trial_tables());
    let (mut same, mut otherwise, mut other_forms) = (0, 0, 0);
    for _ in 0..3000 {
        let actions = random.between(1, 14);
        let plan = repeating_basic_plan(&mut random, 4, actions);
        let again = redrawn(&mut random, &plan);
        let mut forest = Forest::new(&tables);
        assert!(is_basic(&again), "{again:?}");
        assert_eq!(forest.tree_of(&again), forest.tree_of(&plan), "{plan:?}");
        assert_eq!(fixed(&again), fixed(&plan), "{again:?} {plan:?}");
        otherwise += usize::from(again != plan);
        let changed = altered(&mut random, 4, &again);
        assert!(is_basic(&changed), "{changed:?}");
        let one_tree = forest.tree_of(&changed) == forest.tree_of(&plan);
        let one_form = fixed(&changed) == fixed(&plan);
        assert_eq!(one_form, one_tree, "{changed:?} {plan:?}");
        same += usize::from(one_form);
        other_forms += usize::from(!one_form);
        let any = repeating_basic_plan(&mut random, 4, actions);
        assert_eq!(fixed(&any) == fixed(&plan), alike(&tables, &any, &plan));
    }
    assert!(otherwise > 1500, "{otherwise}");
    assert!(
        same > 100 && other_forms > 1500,
        "{same} same, {other_forms} other"
    );
}

#[test]
fn laws_1_to_4_keep_the_form() {
    let (mut random, tables) = (Random::new(112), trial_tables());
    let mut used: BTreeMap<u8, usize> = BTreeMap::new();
    for _ in 0..300 {
        let actions = random.between(2, 10);
        let drawn = repeating_basic_plan(&mut random, 4, actions);
        let plan = redrawn(&mut random, &drawn);
        for place in 0..plan.len() {
            let laws = laws_at(&tables, &plan, place);
            for law in laws.into_iter().filter(|&law| law <= 4) {
                let next = apply(&tables, &plan, law, place).unwrap();
                assert_eq!(fixed(&next), fixed(&plan), "{law} at {place} of {plan:?}");
                *used.entry(law).or_default() += 1;
            }
        }
    }
    assert!((1..=4).all(|law| used[&law] > 50), "{used:?}");
}

#[test]
fn forms_of_sums_and_products() {
    let mut random = Random::new(113);
    let mut made = 0;
    for _ in 0..1500 {
        let [x, y] = [(); 2].map(|_| walked_plan(&mut random, 4));
        let product = [&[2], &x[..], &[PRODUCT]].concat();
        if x.len() + y.len() + 2 > LONGEST_PLAN {
            continue;
        }
        let wanted = [&[2], &fixed(&x)[..], &[PRODUCT]].concat();
        assert_eq!(fixed(&product), wanted);
        if x == [0] || y == [0] {
            continue;
        }
        // The form is the same whichever is first, and whether they are in form or not.
        let sums = [[&x, &y], [&y, &x]].map(|[x, y]| [&x[..], y, &[CHOICE]].concat());
        let of_forms = [fixed(&y), fixed(&x), vec![CHOICE]].concat();
        assert_eq!(fixed(&sums[0]), fixed(&sums[1]));
        assert_eq!(fixed(&sums[0]), fixed(&of_forms));
        made += 1;
    }
    assert!(made > 1000, "{made}");
}

#[test]
fn areas() {
    // Plans with forms of the same length, and with shorter ones.
    let plans: [&[u8]; 7] = [
        &[0],
        &[4],
        &[1, 0, 65],
        &[3, 1, 2, 64, 64],
        &[1, 1, 64, 1, 64],
        &[1, 2, 3, 64, 65, 1, 3, 2, 64, 65, 64],
        &[2, 1, 2, 65, 1, 64, 64],
    ];
    for plan in plans {
        let (tables, wanted) = (trial_tables(), fixed(plan));
        for area in 0..wanted.len() {
            let short = case(&tables, plan, area).run();
            assert_eq!(short.answer, Err(Refusal::nowhere(74)), "{plan:?} {area}");
            assert_eq!(short.area, vec![OLD; area], "{plan:?} {area}");
        }
        for over in (0..12).chain([16_384, 20_000]) {
            let enough = case(&tables, plan, wanted.len() + over).run();
            assert_eq!(enough.answer, Ok(wanted.len()), "{plan:?} {over}");
            assert_eq!(enough.area, [&wanted[..], &vec![0; over]].concat());
        }
    }
    // The area need not be as long as the plan: three 1s in one byte.
    let mut area = [OLD];
    let answer = fix_form(&trial_tables(), &[1, 1, 64, 1, 64], &mut area);
    assert_eq!((answer, area), (Ok(1), [1]));
}

/// The case must be refused so, with its area as it was.
fn refuses(case: &FormCase, number: u8, place: usize) {
    let outcome = case.run();
    let refusal = outcome.answer.unwrap_err();
    assert_eq!((refusal.number, refusal.printed()), (number, place));
    assert_eq!(outcome.area, case.area, "{number}");
}

#[test]
fn plans_that_are_not_basic() {
    for plan in NOT_BASIC {
        // 70 comes before 74, and has no place.
        for area in [0, 1, 2, plan.len() - 1, plan.len(), plan.len() + 1, 20_000] {
            refuses(&case(&trial_tables(), plan, area), 70, 0);
        }
        // As a remainder, and as a summand on either side.
        refuses(
            &case(&trial_tables(), &[&[1], plan, &[65]].concat(), 9),
            70,
            0,
        );
        refuses(
            &case(&trial_tables(), &[&[1], plan, &[64]].concat(), 9),
            70,
            0,
        );
        refuses(&case(&trial_tables(), &[plan, &[1, 64]].concat(), 0), 70, 0);
    }
}

/// Plans that are refused under the trial tables, with the number and the printed place.
fn refused_plans() -> Vec<(Vec<u8>, u8, usize)> {
    let mut long = vec![1; 8192];
    long.resize(16_383, PRODUCT);
    long.resize(16_385, THETA);
    vec![
        (vec![], 11, 0),
        (long, 11, 0),
        (vec![1, 5, 255, 64], 12, 1),
        (vec![1, 2, 64, 64, 255], 13, 3),
        (vec![1, 2], 14, 0),
        (vec![0; 16_384], 14, 0),
    ]
}

#[test]
fn refusals_in_their_order() {
    let good = trial_tables();
    let plans = refused_plans().into_iter().map(|(plan, ..)| plan);
    let plans: Vec<Vec<u8>> = plans
        .chain([vec![1, 2, 66], vec![2, 1, 64], vec![0]])
        .collect();
    for area in [0, 1, 3, 20_000] {
        for (plan, number, place) in refused_plans() {
            refuses(&case(&good, &plan, area), number, place);
        }
        for plan in &plans {
            for length in [0, 1, 2304, 2306, 4096] {
                let mut tables = good.clone();
                tables.resize(length, 0);
                refuses(&case(&tables, plan, area), 1, 0);
            }
            for (at, &(byte, value, number, place)) in TRIAL_FAULTS.iter().enumerate() {
                let mut tables = good.clone();
                tables[byte] = value;
                refuses(&case(&tables, plan, area), number, place);
                // Later faults besides, one after the other, change nothing.
                for &(byte, value, later, _) in &TRIAL_FAULTS[at + 1..] {
                    if later > number {
                        tables[byte] = value;
                        refuses(&case(&tables, plan, area), number, place);
                    }
                }
            }
        }
    }
    refuses(&case(&good, &[1, 2, 66], 0), 70, 0);
    refuses(&case(&good, &[2, 1, 64], 2), 74, 0);
    assert_eq!(case(&good, &[2, 1, 64], 3).run().answer, Ok(3));
}

#[test]
fn long_plans() {
    let half = LONGEST_PLAN / 2;
    // One path, which is in form; with a sign of priority it is 16,384 words, and not basic.
    let mut path = vec![2; half];
    path.resize(LONGEST_PLAN - 1, PRODUCT);
    assert_eq!(fixed(&path), path);
    refuses(&case(&trial_tables(), &path, LONGEST_PLAN - 2), 74, 0);
    path.push(THETA);
    refuses(&case(&trial_tables(), &path, 0), 70, 0);
    // The same path behind itself: 1·x + 1·x.
    let mut shorter = vec![1; half / 2];
    shorter.resize(half - 1, PRODUCT);
    let twice = [&shorter[..], &shorter, &[CHOICE]].concat();
    assert_eq!(twice.len(), LONGEST_PLAN - 1);
    assert_eq!(fixed(&twice), shorter);
    // 8,192 summands of four, in either grouping.
    let summands: Vec<u8> = (0..half).map(|index| 4 - (index % 4) as u8).collect();
    let right = [&summands[..], &vec![CHOICE; half - 1]].concat();
    let others = summands[1..].iter().flat_map(|&a| [a, CHOICE]);
    let left: Vec<u8> = [summands[0]].into_iter().chain(others).collect();
    for plan in [left, right] {
        assert_eq!(plan.len(), LONGEST_PLAN - 1);
        assert_eq!(fixed(&plan), [1, 2, 64, 3, 64, 4, 64]);
    }
}

#[test]
fn long_plans_with_a_sum_in_every_remainder() {
    // 2·(2·(… + 1) + 1): in form the 1 goes before.
    let levels = LONGEST_PLAN / 4;
    let plan = [vec![2; levels], [1, CHOICE, PRODUCT].repeat(levels - 1)].concat();
    assert_eq!(plan.len(), LONGEST_PLAN - 3);
    let mut wanted = [2, 1].repeat(levels - 1);
    wanted.push(2);
    wanted.extend([CHOICE, PRODUCT].repeat(levels - 1));
    assert_eq!(fixed(&plan), wanted);
    assert_eq!(fixed(&wanted), wanted);
    // Each remainder twice, eleven deep: 1·x + 1·x becomes 1·x.
    let mut plan = vec![2];
    for _ in 0..11 {
        plan = [&[1], &plan[..], &[PRODUCT, 1], &plan, &[PRODUCT, CHOICE]].concat();
    }
    assert!(plan.len() < LONGEST_PLAN, "{}", plan.len());
    let mut wanted = vec![1; 11];
    wanted.push(2);
    wanted.resize(23, PRODUCT);
    assert_eq!(fixed(&plan), wanted);
}

#[test]
fn all_bytes_that_an_action_can_be() {
    let mut tables = trial_tables();
    tables[0] = 31;
    tables[1026..1057].fill(1);
    let backwards: Vec<u8> = (1..=31).rev().collect();
    let plan = [&backwards[..], &[CHOICE; 30]].concat();
    let wanted: Vec<u8> = [1]
        .into_iter()
        .chain((2..=31).flat_map(|a| [a, CHOICE]))
        .collect();
    let outcome = case(&tables, &plan, 61).run();
    assert_eq!((outcome.answer, outcome.area), (Ok(61), wanted));
}

/// The summands of a basic plan, as words.
fn summands(plan: &[u8]) -> Vec<&[u8]> {
    let starts = starts(plan);
    let (mut found, mut waiting) = (Vec::new(), vec![plan.len() - 1]);
    while let Some(place) = waiting.pop() {
        match plan[place] {
            CHOICE => waiting.extend([place - 1, starts[place - 1] - 1]),
            _ => found.push(&plan[starts[place]..=place]),
        }
    }
    found
}

/// Those kinds that are there.
fn kinds(all: &[(&'static str, bool)]) -> Vec<&'static str> {
    let here = all.iter().filter(|(_, here)| *here);
    here.map(|(kind, _)| *kind).collect()
}

/// The kinds that a case is one of, after its answer and its area are compared.
fn kinds_of(case: &FormCase) -> Vec<&'static str> {
    let (outcome, area) = (case.run(), case.area.len());
    let refused = |refusal| {
        assert_eq!(outcome.answer, Err(refusal));
        assert_eq!(outcome.area, case.area);
    };
    if let Err(refusal) = judge(&case.tables, &case.plan) {
        refused(refusal);
        return judged_kinds(case, refusal.number);
    }
    if !is_basic(&case.plan) {
        refused(Refusal::nowhere(70));
        return not_basic_kinds(case);
    }
    let wanted = form(&case.plan);
    let mut forest = Forest::new(&case.tables);
    let tree = forest.tree_of(&case.plan);
    assert_eq!(forest.tree_of(&wanted), tree, "{:?}", case.plan);
    assert_eq!(form(&wanted), wanted, "{:?}", case.plan);
    if case.plan.len() < 1000 {
        assert_eq!(form_of_tree(&forest, tree), wanted, "{:?}", case.plan);
    }
    if area < wanted.len() {
        refused(Refusal::nowhere(74));
        return short_kinds(case, wanted.len());
    }
    assert_eq!(outcome.answer, Ok(wanted.len()));
    let zeros = vec![0; area - wanted.len()];
    assert_eq!(outcome.area, [&wanted[..], &zeros].concat());
    let mut found = area_kinds(case, wanted.len());
    found.extend(form_kinds(case, &wanted));
    found.extend(long_kinds(&case.plan));
    found
}

/// The kinds of a case whose tables or plan are refused.
fn judged_kinds(case: &FormCase, number: u8) -> Vec<&'static str> {
    let names = [
        "", "1", "2", "3", "4", "5", "6", "7", "8", "", "", "11", "12", "13", "14",
    ];
    let (words, area) = (case.plan.len(), case.area.len());
    kinds(&[
        (names[number as usize], true),
        ("1 to 8, no area", number < 11 && area == 0),
        ("1 to 8, area of the plan", number < 11 && area >= words),
        ("11 to 14, no area", number >= 11 && area == 0),
        ("11 to 14, area of the plan", number >= 11 && area >= words),
        ("11, 16,385 words", words == LONGEST_PLAN + 1),
    ])
}

/// The kinds of a case that is refused with 70.
fn not_basic_kinds(case: &FormCase) -> Vec<&'static str> {
    let (plan, area) = (&case.plan, case.area.len());
    let signs = plan.iter().filter(|&&word| word > PRODUCT).count();
    let last_word_alone = plan.ends_with(&[THETA]) && is_basic(&plan[..plan.len() - 1]);
    kinds(&[
        ("70, no area", area == 0),
        ("70, area shorter than the plan", area < plan.len()),
        ("70, area of the plan", area >= plan.len()),
        ("70, choice and product alone", signs == 0),
        ("70, one other sign", signs == 1),
        ("70, by the last word alone", last_word_alone),
        ("70, 16,384 words", plan.len() == LONGEST_PLAN),
    ])
}

/// The kinds of a case whose area is shorter than the form.
fn short_kinds(case: &FormCase, form: usize) -> Vec<&'static str> {
    let (words, area) = (case.plan.len(), case.area.len());
    kinds(&[
        ("74, no area", area == 0),
        ("74 by one byte", area > 0 && area + 1 == form),
        ("74 by more", area > 0 && area + 1 < form),
        ("74, form of the plan's length", form == words),
        ("74, form shorter than the plan", form < words),
        ("74, 16,383 words", form == LONGEST_PLAN - 1),
    ])
}

/// The kinds of area that a form is put into.
fn area_kinds(case: &FormCase, form: usize) -> Vec<&'static str> {
    let (words, area) = (case.plan.len(), case.area.len());
    let old = case.area[form..].iter().any(|&byte| byte != 0);
    let shorter = form < words;
    kinds(&[
        ("area of form and plan", area == form && !shorter),
        ("area of the form, below the plan", area == form && shorter),
        ("area between form and plan", area > form && area < words),
        ("area of the plan, above the form", area == words && shorter),
        ("area one byte above the form", area == form + 1),
        ("area above the plan", area > words),
        ("area above 16,384", area > LONGEST_PLAN),
        ("area with old bytes past the form", old),
    ])
}

/// The kinds of plan that a form is made of.
fn form_kinds(case: &FormCase, form: &[u8]) -> Vec<&'static str> {
    let (plan, n) = (&case.plan, case.tables[0]);
    let (given, fixed) = (summands(plan), summands(form));
    let different: BTreeSet<&[u8]> = given.iter().copied().collect();
    let begins = fixed
        .windows(2)
        .any(|pair| pair[1].len() > 1 && pair[1].starts_with(pair[0]));
    let equal_length = form.len() == plan.len();
    let y_sum = plan.ends_with(&[CHOICE, CHOICE]);
    let x_sum = plan.ends_with(&[CHOICE]) && {
        let y = starts(plan)[plan.len() - 2];
        plan[y - 1] == CHOICE
    };
    let moved = *form != plan[..] && equal_length;
    kinds(&[
        ("dead stop alone", plan[..] == [0]),
        ("an action alone", plan.len() == 1 && plan[0] > 0),
        ("before dead stop", plan.len() == 3 && plan[1] == 0),
        (
            "dead stop among others",
            plan.len() > 9 && plan.contains(&0),
        ),
        ("in form already", *form == plan[..] && fixed.len() > 2),
        ("in another order alone", moved && fixed.len() > 1),
        ("in a remainder alone", moved && fixed.len() == 1),
        ("equal summands", different.len() < given.len()),
        (
            "many equal summands",
            given.len() > 9 && different.len() < 4,
        ),
        ("equal in form alone", fixed.len() < different.len()),
        ("a summand begins another", begins),
        (
            "one summand left of many",
            given.len() > 3 && fixed.len() == 1,
        ),
        ("grouped to the left", x_sum && !y_sum),
        ("grouped to the right", y_sum && !x_sum),
        ("in groups on both sides", x_sum && y_sum),
        ("ten times shorter", 10 * form.len() < plan.len()),
        ("one action", n == 1 && plan.len() > 9),
        ("action 31", plan.contains(&31) && plan.len() > 9),
    ])
}

/// The kinds of long plans that a form is made of.
fn long_kinds(plan: &[u8]) -> Vec<&'static str> {
    let longest = plan.len() == LONGEST_PLAN - 1;
    let choices = plan.iter().filter(|&&word| word == CHOICE).count();
    let products = plan.iter().filter(|&&word| word == PRODUCT).count();
    let right = plan.ends_with(&[CHOICE; 9]);
    let wide = longest && choices == LONGEST_PLAN / 2 - 1;
    let pairs = longest && choices == LONGEST_PLAN / 4 - 1;
    kinds(&[
        ("1,000 words and more", plan.len() >= 1000),
        ("16,383 words, one path", longest && choices == 0),
        ("16,383 words, actions to the left", wide && !right),
        ("16,383 words, actions to the right", wide && right),
        ("16,383 words, products to the left", pairs && !right),
        ("16,383 words, products to the right", pairs && right),
        (
            "16,383 words, a sum in every remainder",
            pairs && products == choices + 1 && plan.ends_with(&[PRODUCT]),
        ),
    ])
}

/// The kinds of cases with a refusal of tables or plan, or with a plan that is seldom drawn.
const SELDOM: [&str; 23] = [
    "1",
    "2",
    "3",
    "4",
    "5",
    "6",
    "7",
    "8",
    "11",
    "11, 16,385 words",
    "12",
    "13",
    "14",
    "1 to 8, no area",
    "11 to 14, no area",
    "70, 16,384 words",
    "74, 16,383 words",
    "16,383 words, one path",
    "16,383 words, actions to the left",
    "16,383 words, actions to the right",
    "16,383 words, products to the left",
    "16,383 words, products to the right",
    "16,383 words, a sum in every remainder",
];

/// The other kinds.
const OFTEN: [&str; 40] = [
    "1 to 8, area of the plan",
    "11 to 14, area of the plan",
    "70, no area",
    "70, area shorter than the plan",
    "70, area of the plan",
    "70, choice and product alone",
    "70, one other sign",
    "70, by the last word alone",
    "74, no area",
    "74 by one byte",
    "74 by more",
    "74, form of the plan's length",
    "74, form shorter than the plan",
    "area of form and plan",
    "area of the form, below the plan",
    "area between form and plan",
    "area of the plan, above the form",
    "area one byte above the form",
    "area above the plan",
    "area above 16,384",
    "area with old bytes past the form",
    "dead stop alone",
    "an action alone",
    "before dead stop",
    "dead stop among others",
    "in form already",
    "in another order alone",
    "in a remainder alone",
    "equal summands",
    "many equal summands",
    "equal in form alone",
    "a summand begins another",
    "one summand left of many",
    "grouped to the left",
    "grouped to the right",
    "in groups on both sides",
    "ten times shorter",
    "one action",
    "action 31",
    "1,000 words and more",
];

#[test]
fn random_cases_reach_every_kind() {
    let mut random = Random::new(114);
    let mut counts: BTreeMap<&'static str, usize> = BTreeMap::new();
    for _ in 0..4000 {
        for kind in kinds_of(&form_case(&mut random)) {
            *counts.entry(kind).or_default() += 1;
        }
    }
    let rarer = |kind: &&str, least| counts.get(*kind).is_none_or(|&count| count < least);
    let mut missing: Vec<&str> = SELDOM.into_iter().filter(|kind| rarer(kind, 3)).collect();
    missing.extend(OFTEN.into_iter().filter(|kind| rarer(kind, 20)));
    assert!(missing.is_empty(), "{missing:?} {counts:?}");
    assert_eq!(counts.len(), SELDOM.len() + OFTEN.len());
}

#[test]
fn random_cases_drawn_anew_and_altered() {
    let mut random = Random::new(115);
    let (mut other_words, mut same, mut other_forms, mut none) = (0, 0, 0, 0);
    for _ in 0..2000 {
        let case = form_case(&mut random);
        let again = redrawn_case(&mut random, &case);
        let changed = altered_case(&mut random, &case);
        let (Some(again), Some(changed)) = (again, changed) else {
            let number = case.run().answer.unwrap_err().number;
            assert!(number <= 70, "{case:?}");
            none += 1;
            continue;
        };
        let form = form(&case.plan);
        let [of_again, of_changed] = [&again, &changed].map(|case| {
            let outcome = case.run();
            outcome.area[..outcome.answer.unwrap()].to_vec()
        });
        assert_eq!(of_again, form, "{again:?}");
        let mut forest = Forest::new(&case.tables);
        let one_tree = forest.tree_of(&case.plan) == forest.tree_of(&changed.plan);
        assert_eq!(of_changed == form, one_tree, "{changed:?}");
        other_words += usize::from(again.plan != case.plan);
        same += usize::from(one_tree);
        other_forms += usize::from(!one_tree);
    }
    assert!(other_words > 900, "{other_words}");
    assert!(same > 50 && other_forms > 700, "{same} {other_forms}");
    assert!(none > 200, "{none}");
}

#[test]
fn the_same_seed_gives_the_same_cases() {
    let cases = |seed| {
        let mut random = Random::new(seed);
        let mut next = || {
            let case = form_case(&mut random);
            let again = redrawn_case(&mut random, &case).map(|case| (case.plan, case.area));
            let changed = altered_case(&mut random, &case).map(|case| (case.plan, case.area));
            (case.tables, case.plan, case.area, again, changed)
        };
        (0..50).map(|_| next()).collect::<Vec<_>>()
    };
    assert_eq!(cases(1), cases(1));
    assert_ne!(cases(1), cases(2));
}
