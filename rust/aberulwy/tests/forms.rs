//! Fixed forms, through the safe call and the raw one: of small plans by hand, of plans that are
//! alike and of plans that are not, of the longest ones, what is refused, and what the areas hold.

use aberulwy::examples::trial_tables;
use aberulwy::*;
use reference::forms::form;
use reference::random::forms::{altered_case, form_case, redrawn, redrawn_case, FormCase};
use reference::random::plans::{repeating_basic_plan, NOT_BASIC};
use reference::random::tables::TRIAL_FAULTS;
use reference::random::Random;
use reference::trees::alike;
use std::collections::BTreeSet;

/// What the areas hold before.
const BEFORE: u8 = 0xEE;
/// The words of the longest basic plans: there is one sign less than there are actions.
const LONGEST_BASIC: usize = LONGEST_PLAN - 1;

/// The answer of a call in an area of so many bytes, and the area afterwards. The raw call answers
/// the same, and leaves the same bytes.
fn fixed_in(tables: &[u8], plan: &[u8], area: usize) -> (Result<usize, Refusal>, Vec<u8>) {
    let (mut safe, mut other) = (vec![BEFORE; area], vec![BEFORE; area]);
    let answer = fix_form(tables, plan, &mut safe);
    let (number, value, place) = match answer {
        Ok(size) => (0, size, 0),
        Err(refusal) => (refusal.number(), 0, refusal.printed()),
    };
    let wanted = raw::Counted {
        number,
        value,
        place,
    };
    assert_eq!(raw::fix_form(tables, plan, &mut other), wanted);
    assert!(safe == other);
    (answer, safe)
}

/// The form of a basic plan under tables, in an area as long as the plan: zeros are behind it.
fn fixed_under(tables: &[u8], plan: &[u8]) -> Vec<u8> {
    let (answer, mut area) = fixed_in(tables, plan, plan.len());
    let size = answer.unwrap();
    assert!(area[size..].iter().all(|&byte| byte == 0));
    area.truncate(size);
    area
}

/// The form under the tables of the trial trays.
fn fixed(plan: &[u8]) -> Vec<u8> {
    fixed_under(&trial_tables(), plan)
}

/// The call is refused so, and the area keeps its bytes.
fn refused(tables: &[u8], plan: &[u8], area: usize, number: u8, place: usize) {
    let (answer, area) = fixed_in(tables, plan, area);
    let refusal = answer.unwrap_err();
    assert_eq!((refusal.number(), refusal.printed()), (number, place));
    assert!(area.iter().all(|&byte| byte == BEFORE), "{number}");
}

#[test]
fn the_request() {
    // "Remainders are brought to it first": 1·(3 + 2), and 1·(2·(4 + 3)).
    assert_eq!(fixed(&[1, 3, 2, 64, 65]), [1, 2, 3, 64, 65]);
    assert_eq!(fixed(&[1, 2, 4, 3, 64, 65, 65]), [1, 2, 3, 4, 64, 65, 65]);
    // "equal summands are reduced to one", also those that are equal after that alone:
    // 1·(2 + 3) + 1·(3 + 2), and 1·(2 + 2) + 1·2.
    assert_eq!(fixed(&[1, 1, 64]), [1]);
    assert_eq!(
        fixed(&[1, 2, 3, 64, 65, 1, 3, 2, 64, 65, 64]),
        [1, 2, 3, 64, 65]
    );
    assert_eq!(fixed(&[1, 2, 2, 64, 65, 1, 2, 65, 64]), [1, 2, 65]);
    // "summands stand in ascending order of their bytes, a shorter one first where it begins the
    // longer": 1, 1·2, 2.
    let ascending = [1, 1, 2, 65, 64, 2, 64];
    assert_eq!(fixed(&[2, 1, 2, 65, 64, 1, 64]), ascending);
    // "sums group to the left".
    assert_eq!(fixed(&[1, 1, 2, 65, 2, 64, 64]), ascending);
    assert_eq!(fixed(&[4, 3, 64, 2, 1, 64, 64]), [1, 2, 64, 3, 64, 4, 64]);
    // "A plan that isn't basic gets 70. After that an area shorter than the form gets 74 and keeps
    // its bytes; a longer one is zero past the form."
    refused(&trial_tables(), &[1, 2, 66], 3, 70, 0);
    refused(&trial_tables(), &[2, 1, 64], 2, 74, 0);
    let (answer, area) = fixed_in(&trial_tables(), &[2, 1, 64], 5);
    assert_eq!((answer, &area[..]), (Ok(3), &[1, 2, 64, 0, 0][..]));
}

#[test]
fn plans_in_form() {
    let plans: [&[u8]; 12] = [
        &[0],
        &[1],
        &[4],
        &[1, 0, 65],
        &[1, 1, 65],
        &[1, 2, 64],
        &[1, 1, 0, 65, 64],
        &[1, 0, 65, 1, 2, 65, 64],
        &[1, 2, 64, 3, 64, 4, 64],
        &[1, 2, 3, 64, 65, 2, 64],
        // 1·(1·2) and 1·3: the second bytes decide, and not the lengths.
        &[1, 1, 2, 65, 65, 1, 3, 65, 64],
        // 1·(2 + 3) and 1·2: 3 goes before the sign of a product.
        &[1, 2, 3, 64, 65, 1, 2, 65, 64],
    ];
    for plan in plans {
        assert_eq!(is_basic(&trial_tables(), plan), Ok(true), "{plan:?}");
        assert_eq!(fixed(plan), plan);
    }
}

/// "`1 2 3 64 65` and `1 2 65 1 3 65 64`: not alike; `1 2 64` and `2 1 64 1 64`: alike."
#[test]
fn the_plans_of_case_12() {
    let (shared, apart) = ([1, 2, 3, 64, 65], [1, 2, 65, 1, 3, 65, 64]);
    assert_eq!(fixed(&shared), shared);
    assert_eq!(fixed(&apart), apart);
    assert_ne!(fixed(&shared), fixed(&apart));
    assert_eq!(fixed(&[1, 2, 64]), [1, 2, 64]);
    assert_eq!(fixed(&[2, 1, 64, 1, 64]), [1, 2, 64]);
    // Dead stop behind an action is kept: 1·δ is neither δ nor 1.
    let forms = [&[0][..], &[1], &[1, 0, 65]].map(fixed);
    assert_eq!(forms, [vec![0], vec![1], vec![1, 0, 65]]);
    assert_eq!(fixed(&[1, 0, 65, 1, 64]), [1, 1, 0, 65, 64]);
}

/// Summands in form, in ascending order.
const ASCENDING: [&[u8]; 12] = [
    &[1],
    &[1, 0, 65],
    &[1, 1, 0, 65, 65],
    &[1, 1, 1, 2, 65, 64, 65],
    &[1, 1, 1, 65, 65],
    &[1, 1, 2, 64, 65],
    &[1, 1, 65],
    &[1, 2, 65],
    &[1, 4, 65],
    &[2],
    &[2, 0, 65],
    &[4],
];

/// The sum of summands in this order, grouped to the left, and grouped to the right.
fn sums(summands: &[&[u8]]) -> [Vec<u8>; 2] {
    let mut left = summands[0].to_vec();
    for summand in &summands[1..] {
        left.extend(*summand);
        left.push(64);
    }
    let mut right = summands.concat();
    right.resize(left.len(), 64);
    [left, right]
}

#[test]
fn the_order_of_summands() {
    for (index, low) in ASCENDING.into_iter().enumerate() {
        assert_eq!(fixed(&[low, low, &[64]].concat()), low);
        for high in ASCENDING.into_iter().skip(index + 1) {
            let wanted = [low, high, &[64]].concat();
            assert_eq!(fixed(&wanted), wanted);
            assert_eq!(fixed(&[high, low, &[64]].concat()), wanted);
            // The same in a remainder.
            let remainder = [&[3], high, low, &[64, 65]].concat();
            assert_eq!(fixed(&remainder), [&[3], &wanted[..], &[65]].concat());
        }
    }
    // All of them, in any order and in groups, twice.
    let (mut random, mut order) = (Random::new(107), ASCENDING.to_vec());
    let [wanted, _] = sums(&ASCENDING);
    for _ in 0..200 {
        let at = random.below(order.len());
        order.swap(at, 0);
        order.rotate_left(1);
        let [left, right] = sums(&order);
        assert_eq!(fixed(&left), wanted);
        assert_eq!(fixed(&right), wanted);
        assert_eq!(fixed(&[left, right, vec![64]].concat()), wanted);
    }
}

#[test]
fn areas() {
    // Plans with forms of the same length, and with shorter ones.
    let plans: [(&[u8], usize); 7] = [
        (&[0], 1),
        (&[4], 1),
        (&[1, 0, 65], 3),
        (&[3, 1, 2, 64, 64], 5),
        (&[1, 1, 64, 1, 64], 1),
        (&[1, 2, 3, 64, 65, 1, 3, 2, 64, 65, 64], 5),
        (&[2, 1, 2, 65, 2, 64, 64], 5),
    ];
    let tables = trial_tables();
    for (plan, size) in plans {
        let wanted = fixed(plan);
        assert_eq!(wanted.len(), size, "{plan:?}");
        // None, and up to one byte too few.
        for area in 0..size {
            refused(&tables, plan, area, 74, 0);
        }
        // As long as the form, shorter than the plan, as long, and longer, with old bytes behind.
        for over in (0..14).chain([LONGEST_PLAN, 20_000]) {
            let (answer, area) = fixed_in(&tables, plan, size + over);
            assert_eq!(answer, Ok(size), "{plan:?} {over}");
            assert!(area == [&wanted[..], &vec![0; over]].concat());
        }
    }
    // The area need not be as long as the plan: three 1s in one byte, and in two.
    let plan = [1, 1, 64, 1, 64];
    assert_eq!(fixed_in(&tables, &plan, 1), (Ok(1), vec![1]));
    assert_eq!(fixed_in(&tables, &plan, 2), (Ok(1), vec![1, 0]));
    refused(&tables, &plan, 0, 74, 0);
}

/// A chain of as many words as can be: actions, each followed by all behind it.
fn deep(actions: impl Fn(usize) -> u8) -> Vec<u8> {
    let mut plan: Vec<u8> = (0..LONGEST_PLAN / 2).map(actions).collect();
    plan.resize(LONGEST_BASIC, 65);
    plan
}

/// Plans that the tables of the trial trays refuse, with the number and the place.
fn refused_plans() -> [(Vec<u8>, u8, usize); 7] {
    let mut long = deep(|_| 1);
    long.resize(LONGEST_PLAN + 1, 70);
    [
        (vec![], 11, 0),
        (long, 11, 0),
        (vec![1, 5, 66], 12, 1),
        (vec![1, 1, 64, 96], 12, 3),
        (vec![1, 66], 13, 1),
        (vec![1, 2], 14, 0),
        (vec![1; LONGEST_PLAN], 14, 0),
    ]
}

#[test]
fn the_order_of_refusals() {
    let tables = trial_tables();
    let (basic, other) = (vec![2, 1, 64], vec![1, 2, 66]);
    let plans = refused_plans().map(|(plan, ..)| plan).into_iter();
    let plans: Vec<Vec<u8>> = plans.chain([basic.clone(), other.clone()]).collect();
    // No area, one byte too few for the basic plan's form, as many as it has, and enough for every
    // form.
    for area in [0, 2, 3, LONGEST_PLAN] {
        // The tables' faults, with every other fault there too.
        for plan in &plans {
            refused(&[], plan, area, 1, 0);
            refused(&tables[1..], plan, area, 1, 0);
            refused(&[&tables[..], &[0]].concat(), plan, area, 1, 0);
            for (index, byte, number, place) in TRIAL_FAULTS {
                let mut damaged = tables;
                damaged[index] = byte;
                refused(&damaged, plan, area, number, place);
            }
        }
        // The plan's faults, with an area that is too short for any form, or long enough.
        for (plan, number, place) in refused_plans() {
            refused(&tables, &plan, area, number, place);
        }
        // 70 before 74, and 70.
        refused(&tables, &other, area, 70, 0);
    }
    // 74 alone, and no refusal.
    refused(&tables, &basic, 0, 74, 0);
    refused(&tables, &basic, 2, 74, 0);
    assert_eq!(fixed_in(&tables, &basic, 3), (Ok(3), vec![1, 2, 64]));
}

#[test]
fn plans_that_are_not_basic() {
    for plan in NOT_BASIC {
        let remainder = [&[1], plan, &[65]].concat();
        let [first, second] =
            [[plan, &[1]], [&[1], plan]].map(|pair| [&pair.concat()[..], &[64]].concat());
        for plan in [plan, &remainder, &first, &second] {
            for area in [0, 1, plan.len() - 1, plan.len(), plan.len() + 9] {
                refused(&trial_tables(), plan, area, 70, 0);
            }
        }
    }
}

#[test]
fn the_places_of_70_and_74() {
    let reasons = [
        (
            [1, 2, 66],
            70,
            "the plan is not basic, or the marks of a walk are of another length",
        ),
        (
            [1, 2, 65],
            74,
            "the area is shorter than what is to be written into it",
        ),
    ];
    for (plan, number, reason) in reasons {
        let refusal = fix_form(&trial_tables(), &plan, &mut []).unwrap_err();
        assert_eq!(
            (refusal.number(), refusal.place()),
            (number, Place::Nowhere)
        );
        assert_eq!(refusal.reason(), reason);
        assert_eq!(refusal.to_string(), format!("refused {number} 0: {reason}"));
    }
}

/// The plan has this form, in an area that holds it exactly and in longer ones; one byte too few, and
/// no area, are refused.
fn fills(plan: &[u8], wanted: &[u8]) {
    let (tables, size) = (trial_tables(), wanted.len());
    for over in [0, 1, LONGEST_PLAN] {
        let (answer, area) = fixed_in(&tables, plan, size + over);
        assert_eq!(answer, Ok(size));
        assert!(area == [wanted, &vec![0; over]].concat());
    }
    refused(&tables, plan, size - 1, 74, 0);
    refused(&tables, plan, 0, 74, 0);
}

#[test]
fn the_longest_chains() {
    let last = LONGEST_PLAN / 2 - 1;
    let chains = [
        deep(|_| 1),
        deep(|place| 1 + (place % 4) as u8),
        deep(|place| 4 - 3 * u8::from(place == last)),
        // Into a dead stop.
        deep(|place| 2 * u8::from(place < last)),
    ];
    for plan in chains {
        assert_eq!(plan.len(), LONGEST_BASIC);
        fills(&plan, &plan);
        // One word more: not basic; two words more: no plan.
        let mut longer = [&plan[..], &[70]].concat();
        refused(&trial_tables(), &longer, LONGEST_PLAN, 70, 0);
        refused(&trial_tables(), &longer, 0, 70, 0);
        longer.push(70);
        refused(&trial_tables(), &longer, 0, 11, 0);
    }
}

#[test]
fn two_long_chains_in_one_sum() {
    // Two chains that differ in their last action alone, or in no action, in either order.
    let chain = |last: u8| {
        let mut plan = vec![1; LONGEST_PLAN / 4 - 1];
        plan.push(last);
        plan.resize(LONGEST_PLAN / 2 - 1, 65);
        plan
    };
    let (low, high) = (chain(2), chain(3));
    let wanted = [&low[..], &high, &[64]].concat();
    assert_eq!(wanted.len(), LONGEST_BASIC);
    fills(&[&high[..], &low, &[64]].concat(), &wanted);
    fills(&wanted, &wanted);
    fills(&[&low[..], &low, &[64]].concat(), &low);
    // A chain and one with an action more, which goes first: an action is below the sign.
    let shorter = [&vec![1; 4095][..], &vec![65; 4094]].concat();
    let longer = [&vec![1; 4096][..], &vec![65; 4095]].concat();
    let wanted = [&longer[..], &shorter, &[64]].concat();
    fills(&[&shorter[..], &longer, &[64]].concat(), &wanted);
}

#[test]
fn thousands_of_equal_summands() {
    // 1·2 + 1·2 + …, and 1 + 1 + …, grouped to the left and to the right.
    for summand in [&[1, 2, 65][..], &[1]] {
        let count = LONGEST_PLAN / (summand.len() + 1);
        for plan in sums(&vec![summand; count]) {
            assert_eq!(plan.len(), LONGEST_BASIC);
            fills(&plan, summand);
            // Behind an action.
            let behind = [&[3], &plan[..LONGEST_BASIC], &[65]].concat();
            refused(&trial_tables(), &behind, LONGEST_PLAN, 11, 0);
        }
        for plan in sums(&vec![summand; count - 1]) {
            let behind = [&[3], &plan[..], &[65]].concat();
            fills(&behind, &[&[3], summand, &[65]].concat());
        }
    }
    // One other among them: it goes to the front, or to the end.
    let count = LONGEST_PLAN / 4;
    for at in [0, 1, 2000, count - 1] {
        for (other, first) in [([1, 1, 65], true), ([1, 0, 65], true), ([2, 0, 65], false)] {
            let mut summands = vec![&[1, 2, 65][..]; count];
            summands[at] = &other;
            let usual = [1, 2, 65];
            let wanted = match first {
                true => [&other[..], &usual, &[64]].concat(),
                false => [&usual[..], &other, &[64]].concat(),
            };
            for plan in sums(&summands) {
                fills(&plan, &wanted);
            }
        }
    }
}

/// Different summands in ascending order, as many of seven actions, one behind the other, as the
/// longest plan has room for: their actions are the digits of a number.
fn many_summands() -> Vec<Vec<u8>> {
    let digit = |number: usize, place: u32| 1 + (number / 4usize.pow(place) % 4) as u8;
    let chain = |number: usize| {
        let mut plan: Vec<u8> = (0..7).rev().map(|place| digit(number, place)).collect();
        plan.resize(13, 65);
        plan
    };
    // A sign stands between two.
    (0..LONGEST_PLAN / 14).map(chain).collect()
}

#[test]
fn a_thousand_different_summands() {
    let all = many_summands();
    let mut ascending: Vec<&[u8]> = all.iter().map(Vec::as_slice).collect();
    let [wanted, right] = sums(&ascending);
    fills(&wanted, &wanted);
    fills(&right, &wanted);
    ascending.reverse();
    for plan in sums(&ascending) {
        fills(&plan, &wanted);
    }
    let mut random = Random::new(108);
    for index in (1..ascending.len()).rev() {
        ascending.swap(index, random.below(index + 1));
    }
    for plan in sums(&ascending) {
        fills(&plan, &wanted);
    }
}

#[test]
fn a_sum_in_every_remainder() {
    // 1·(… + 2) + 2 all the way down to 1 + 2; and 2 + 1·(2 + …) down to 2 + 1.
    let (mut wanted, mut other) = (vec![1, 2, 64], vec![2, 1, 64]);
    for _ in 0..LONGEST_PLAN / 4 - 1 {
        wanted = [&[1], &wanted[..], &[65, 2, 64]].concat();
        other = [&[2, 1], &other[..], &[65, 64]].concat();
    }
    assert_eq!(wanted.len(), LONGEST_BASIC);
    fills(&wanted, &wanted);
    fills(&other, &wanted);
}

/// A form is a basic plan that is its own form; it has no more words than the plan, and the same
/// tree.
#[test]
fn the_form_of_a_form() {
    let (mut random, mut kinds) = (Random::new(109), [0; 3]);
    let tables = trial_tables();
    for _ in 0..3000 {
        let actions = random.between(1, 14);
        let plan = repeating_basic_plan(&mut random, 4, actions);
        let found = fixed(&plan);
        assert_eq!(is_basic(&tables, &found), Ok(true), "{plan:?}");
        assert_eq!(fixed(&found), found, "{plan:?}");
        assert!(found.len() <= plan.len(), "{plan:?}");
        assert!(alike(&tables, &found, &plan), "{plan:?}");
        assert_eq!(found, form(&plan), "{plan:?}");
        kinds[match found.len() < plan.len() {
            true => 0,
            false => 1 + usize::from(found == plan),
        }] += 1;
    }
    assert!(kinds.iter().all(|&kind| kind > 300), "{kinds:?}");
}

#[test]
fn equal_forms_exactly_when_alike() {
    let (mut random, tables) = (Random::new(110), trial_tables());
    let mut answers = [0; 2];
    for _ in 0..2000 {
        let [plan, other] = [(); 2].map(|()| {
            let actions = random.between(1, 5);
            repeating_basic_plan(&mut random, 2, actions)
        });
        let again = redrawn(&mut random, &plan);
        assert_eq!(fixed(&again), fixed(&plan), "{again:?} {plan:?}");
        let same = fixed(&other) == fixed(&plan);
        assert_eq!(same, alike(&tables, &other, &plan), "{other:?} {plan:?}");
        answers[usize::from(same)] += 1;
    }
    assert!(answers.iter().all(|&count| count > 50), "{answers:?}");
}

/// The numbers that messages are answered by, and whether each leaves a finish.
fn walked(plan: &[u8], messages: &[u8]) -> Vec<(u8, bool)> {
    let (tables, mut marks, mut finished) = (trial_tables(), vec![0; plan.len()], false);
    fresh_walk(&tables, plan, &mut marks, &mut finished).unwrap();
    let taken = messages.iter().map(|&message| {
        let taken = walk(&tables, plan, &mut marks, message, &mut finished);
        (taken.map_or_else(Refusal::number, |()| 0), finished)
    });
    taken.collect()
}

/// The calls that ask what a plan does answer alike for the plan and for its form.
#[test]
fn the_form_does_what_the_plan_does() {
    let (mut random, tables) = (Random::new(111), trial_tables());
    let mut taken = 0;
    for _ in 0..1000 {
        let actions = random.between(1, 20);
        let plan = repeating_basic_plan(&mut random, 4, actions);
        let found = fixed(&plan);
        let messages: Vec<u8> = (0..12).map(|_| random.between(1, 4) as u8).collect();
        let answers = walked(&plan, &messages);
        assert_eq!(walked(&found, &messages), answers, "{plan:?}");
        taken += answers.iter().filter(|answer| answer.0 == 0).count();
        for (first, second) in [(1, 2), (2, 1), (3, 4)] {
            let yes = |plan: &[u8]| precedes(&tables, plan, first, second) == Ok(Precedence::Yes);
            assert_eq!(yes(&found), yes(&plan), "{first} {second} {plan:?}");
        }
        // A path that stands twice counts twice, so the form has at most as many.
        let [before, after] = [&plan, &found].map(|plan| count_orders(&tables, plan).unwrap());
        assert!(after.orders <= before.orders && after.stuck <= before.stuck);
        assert_eq!(after.orders == 0, before.orders == 0, "{plan:?}");
        assert_eq!(after.stuck == 0, before.stuck == 0, "{plan:?}");
    }
    assert!(taken > 1500, "{taken}");
}

/// What laws 1 to 4 lead to is alike, so it has the same form.
#[test]
fn laws_1_to_4_keep_the_form() {
    let cases: [(&[u8], &[u8]); 5] = [
        // x + y is y + x: 1·2 + 3, whole and in a remainder.
        (&[1, 2, 65, 3, 64], &[1, 4, 0]),
        (&[4, 1, 2, 65, 3, 64, 65], &[1, 5, 0]),
        // x + (y + z) is (x + y) + z, and back: 3 + 1·2 + 2.
        (&[3, 1, 2, 65, 2, 64, 64], &[2, 6, 0]),
        (&[3, 1, 2, 65, 64, 2, 64], &[3, 6, 0]),
        // x + x is x.
        (&[1, 2, 65, 1, 2, 65, 64], &[4, 6, 0]),
    ];
    let tables = trial_tables();
    for (plan, rewriting) in cases {
        let (mut a, mut b) = ([0; 64], [0; 64]);
        let replayed = check_rewriting(&tables, plan, &[0], rewriting, &mut a, &mut b).unwrap();
        assert_eq!(replayed.verdict, Verdict::EndDiffers, "{plan:?}");
        let end = replayed.reached(&a, &b);
        assert_ne!(end, plan);
        assert_eq!(fixed(end), fixed(plan), "{plan:?}");
    }
}

#[test]
fn as_many_actions_as_there_are() {
    // Tables of n actions in which nothing happens: n is a word, and n + 1 is none.
    for n in [1, 2, 30, 31] {
        let mut tables = [0; TABLES_LENGTH];
        tables[0] = n;
        tables[1026..1026 + n as usize].fill(1);
        assert_eq!(judge_tables(&tables), Ok(()));
        let backwards: Vec<Vec<u8>> = (1..=n).rev().map(|action| vec![action]).collect();
        let backwards: Vec<&[u8]> = backwards.iter().map(Vec::as_slice).collect();
        let forwards: Vec<&[u8]> = backwards.iter().copied().rev().collect();
        let [wanted, _] = sums(&forwards);
        for plan in sums(&backwards) {
            assert_eq!(fixed_under(&tables, &plan), wanted);
        }
        refused(&tables, &[n + 1], 1, 12, 0);
    }
}

#[test]
fn random_cases() {
    let (mut random, mut numbers) = (Random::new(112), BTreeSet::new());
    let (mut shorter, mut longest) = (0, 0);
    for _ in 0..4000 {
        let case = form_case(&mut random);
        let (tables, plan, area) = (&case.tables[..], &case.plan[..], case.area.len());
        let (answer, left) = fixed_in(tables, plan, area);
        numbers.insert(answer.map_or_else(Refusal::number, |_| 0));
        match is_basic(tables, plan) {
            Err(refusal) => refused(tables, plan, area, refusal.number(), refusal.printed()),
            Ok(false) => refused(tables, plan, area, 70, 0),
            Ok(true) => {
                let wanted = form(plan);
                if area < wanted.len() {
                    refused(tables, plan, area, 74, 0);
                    continue;
                }
                assert_eq!(answer, Ok(wanted.len()));
                assert!(left == [&wanted[..], &vec![0; area - wanted.len()]].concat());
                shorter += usize::from(area < plan.len());
                longest = longest.max(wanted.len());
            }
        }
    }
    let wanted = (0..=8).chain(11..=14).chain([70, 74]);
    assert_eq!(numbers, wanted.collect());
    assert!(shorter > 300, "{shorter}");
    assert_eq!(longest, LONGEST_BASIC);
}

/// The form in the bytes that a case lends, which hold it.
fn fixed_as(case: &FormCase) -> Vec<u8> {
    let mut area = case.area.clone();
    let size = fix_form(&case.tables, &case.plan, &mut area).unwrap();
    assert!(area[size..].iter().all(|&byte| byte == 0));
    area.truncate(size);
    area
}

/// Under any tables: a plan drawn in another way has the same form, and one that was changed has it
/// exactly where it is still alike.
#[test]
fn random_pairs() {
    let mut random = Random::new(113);
    let (mut again, mut same, mut otherwise) = (0, 0, 0);
    for _ in 0..2000 {
        let case = form_case(&mut random);
        let drawn = redrawn_case(&mut random, &case);
        let altered = altered_case(&mut random, &case);
        let (Some(drawn), Some(altered)) = (drawn, altered) else {
            continue;
        };
        let found = fixed_under(&case.tables, &case.plan);
        assert!(fixed_as(&drawn) == found);
        again += usize::from(drawn.plan != case.plan);
        let one_tree = alike(&case.tables, &altered.plan, &case.plan);
        assert_eq!(fixed_as(&altered) == found, one_tree);
        match one_tree {
            true => same += 1,
            false => otherwise += 1,
        }
    }
    assert!(again > 900, "{again}");
    assert!(same > 50 && otherwise > 700, "{same} {otherwise}");
}

/// The form of the plan that a station file's plan unfolds to.
fn form_of_station(file: &[u8]) -> Vec<u8> {
    let (mut tables, mut plan) = (vec![0; TABLES_LENGTH], vec![0; LONGEST_PLAN]);
    let size = read_station(file, &mut tables, &mut plan).unwrap();
    let (mut a, mut b) = (vec![0; LONGEST_PLAN], vec![0; LONGEST_PLAN]);
    let mut list = vec![0; RECORD * 5000];
    let unfolded = unfold(&tables, &plan[..size], 5000, &mut list, &mut a, &mut b).unwrap();
    assert_eq!(unfolded.ending, Ending::Finished);
    // The plan of the file has merges, so it is not basic.
    refused(&tables, &plan[..size], LONGEST_PLAN, 70, 0);
    fixed_under(&tables, unfolded.reached(&a, &b))
}

/// The bench: with a clean coin both hubs do the same, and with any other coin they do not.
#[test]
fn the_two_hubs() {
    let coins = [
        [
            &include_bytes!("../../../examples/bench/clean-coin.station")[..],
            include_bytes!("../../../examples/bench/clean-coin-hub-waits.station"),
        ],
        [
            include_bytes!("../../../examples/bench/crusted-coin.station"),
            include_bytes!("../../../examples/bench/crusted-coin-hub-waits.station"),
        ],
        [
            include_bytes!("../../../examples/bench/light-coin.station"),
            include_bytes!("../../../examples/bench/light-coin-hub-waits.station"),
        ],
    ];
    let forms = coins.map(|files| files.map(form_of_station));
    let sizes = forms.each_ref().map(|pair| pair.each_ref().map(Vec::len));
    assert_eq!(sizes, [[15, 15], [45, 27], [73, 37]]);
    assert_eq!(forms[0][0], forms[0][1]);
    // 3·(6·(12·9)) + 6·(3·(12·9)): the weight goes before the photograph, as 3 before 6.
    let clean = [3, 6, 12, 9, 65, 65, 65, 6, 3, 12, 9, 65, 65, 65, 64];
    assert_eq!(forms[0][0], clean);
    let different: BTreeSet<&Vec<u8>> = forms.iter().flatten().collect();
    assert_eq!(different.len(), 5);
}
