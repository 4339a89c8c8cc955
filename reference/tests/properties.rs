//! What holds of all cases, tried on thousands of random ones.

use reference::checking::{self, check_rewriting, step};
use reference::laws::{apply, next_step};
use reference::plans::{counts, is_basic, judge, judge_plan, starts, subplan, term, words};
use reference::random::cases::*;
use reference::random::plans::{
    any_plan, basic_plan, every_plan, plan, plan_with_left_side, small_plan,
};
use reference::random::rewritings::derivation;
use reference::random::stations::{any_file, station_case};
use reference::random::tables::{lawful_tables, lawful_tables_over};
use reference::random::Random;
use reference::records::cut;
use reference::stations::{program, read_station, station_file};
use reference::tables::{judge_tables, trial_tables, TABLES_LENGTH};
use reference::trees::alike;
use reference::unfolding::{self, unfold};
use std::collections::BTreeSet;

#[test]
fn lawful_tables_are_accepted() {
    let mut random = Random::new(1);
    for _ in 0..2000 {
        assert_eq!(judge_tables(&lawful_tables(&mut random)), Ok(()));
    }
}

#[test]
fn random_plans_are_accepted_and_read_back() {
    let mut random = Random::new(2);
    for _ in 0..2000 {
        let n = random.between(1, 31) as u8;
        let tables = lawful_tables_over(&mut random, n);
        let plan = any_plan(&mut random, n);
        assert_eq!(judge(&tables, &plan), Ok(()));
        assert_eq!(words(&term(&plan)), plan);
        let place = random.below(plan.len());
        assert_eq!(subplan(&plan, place), &plan[starts(&plan)[place]..=place]);
        let paths = random.between(1, 9);
        let basic = basic_plan(&mut random, n, paths);
        let counted = counts(&basic);
        assert_eq!(counted.orders + counted.stuck, paths, "{basic:?}");
        assert_eq!(next_step(&tables, &basic), None);
    }
}

#[test]
fn plans_of_every_small_size() {
    let mut random = Random::new(3);
    for size in 1..400 {
        let made = plan(&mut random, 4, size);
        assert_eq!(made.len(), size);
        assert_eq!(judge_plan(&trial_tables(), &made), Ok(()));
    }
}

#[test]
fn own_rewriting_is_accepted() {
    let mut random = Random::new(4);
    for _ in 0..3000 {
        let case = unfold_case(&mut random);
        let unfolded = case.run();
        let unfolding::Answer::Ended { steps, size, .. } = unfolded.answer else {
            assert_eq!(
                (unfolded.a, unfolded.b, unfolded.list),
                (case.a, case.b, case.list)
            );
            continue;
        };
        let checked = own_rewriting_case(&case).unwrap().run();
        assert_eq!(checked.answer, checking::Answer::Accepted { steps, size });
        assert_eq!((checked.a, checked.b), (unfolded.a, unfolded.b));
    }
}

#[test]
fn finished_exactly_if_basic() {
    let mut random = Random::new(5);
    for _ in 0..3000 {
        let unfolded = unfold_case(&mut random).run();
        if let Some(reached) = unfolded.reached() {
            let finished = unfolded.answer.number() == 0;
            assert_eq!(is_basic(reached), finished);
            let counted = counts(reached);
            assert_eq!(counted.orders + counted.stuck > 0, finished);
        }
    }
}

#[test]
fn unfolding_keeps_the_tree() {
    let mut random = Random::new(6);
    for _ in 0..1500 {
        let tables = lawful_tables(&mut random);
        let plan = small_plan(&mut random, tables[0], 9);
        let case = unfold_case_of(&mut random, tables, plan);
        let unfolded = case.run();
        if let Some(reached) = unfolded.reached() {
            assert!(alike(&case.tables, &case.plan, reached), "{case:?}");
        }
    }
}

#[test]
fn accepted_means_alike_for_every_law() {
    let mut random = Random::new(7);
    let mut laws = BTreeSet::new();
    let mut differing = 0;
    for _ in 0..2500 {
        let tables = lawful_tables(&mut random);
        let start = match random.below(2) {
            0 => small_plan(&mut random, tables[0], 11),
            _ => plan_with_left_side(&mut random, tables[0]),
        };
        if start.len() > 24 {
            continue;
        }
        let made = derivation(&mut random, &tables, &start, 8, 80);
        laws.extend(made.rewriting.iter().step_by(3).copied());
        let (mut a, mut b) = (vec![7; made.longest], vec![7; made.longest]);
        let (claimed, rewriting) = (&made.end, &made.rewriting);
        let answer = check_rewriting(&tables, &start, claimed, rewriting, &mut a, &mut b);
        assert_eq!(answer.number(), 0);
        assert!(alike(&tables, &start, claimed), "{start:?} {claimed:?}");
        let other = small_plan(&mut random, tables[0], 5);
        let answer = check_rewriting(&tables, &start, &other, rewriting, &mut a, &mut b);
        assert_eq!(answer.number(), if other == *claimed { 0 } else { 33 });
        differing += usize::from(answer.number() == 33);
    }
    assert_eq!(
        laws.into_iter().collect::<Vec<_>>(),
        (1..=32).collect::<Vec<_>>()
    );
    assert!(differing > 1000);
}

#[test]
fn the_least_limits_are_enough_and_no_less() {
    let mut random = Random::new(8);
    for _ in 0..600 {
        let tables = lawful_tables(&mut random);
        let plan = small_plan(&mut random, tables[0], 8);
        let Some((steps, longest)) = whole_unfolding(&tables, &plan) else {
            continue;
        };
        let ended = |allowance: usize, list: usize, area: usize| {
            let (mut list, mut a, mut b) = (vec![9; list], vec![9; area], vec![9; area + 1]);
            unfold(&tables, &plan, allowance as u32, &mut list, &mut a, &mut b).number()
        };
        assert_eq!(ended(steps, 3 * steps, longest), 0);
        if steps > 0 {
            assert_eq!(ended(steps - 1, 3 * steps, longest), 34);
            assert_eq!(ended(steps, 3 * steps - 1, longest), 35);
        }
        let too_small = if longest == plan.len() { 15 } else { 36 };
        assert_eq!(ended(steps, 3 * steps, longest - 1), too_small);
    }
}

/// The steps and the longest plan of an unfolding of at most 2,000 steps.
fn whole_unfolding(tables: &[u8], plan: &[u8]) -> Option<(usize, usize)> {
    let mut current = plan.to_vec();
    let mut longest = current.len();
    for steps in 0..2000 {
        let Some((law, place)) = next_step(tables, &current) else {
            return Some((steps, longest));
        };
        current = apply(tables, &current, law, place).unwrap();
        longest = longest.max(current.len());
    }
    None
}

#[test]
fn every_small_plan_at_every_place() {
    let tables = trial_tables();
    let alphabet = [0, 1, 2, 4, 64, 65, 66, 67, 68, 69, 70, 80];
    let mut applied = 0;
    for plan in (1..=4).flat_map(|size| every_plan(&alphabet, size)) {
        assert_eq!(judge(&tables, &plan), Ok(()));
        assert_eq!(
            next_step(&tables, &plan).is_none(),
            is_basic(&plan),
            "{plan:?}"
        );
        for (law, place) in (1..=32).flat_map(|law| (0..plan.len()).map(move |at| (law, at))) {
            if let Some(next) = apply(&tables, &plan, law, place) {
                applied += 1;
                assert_eq!(judge(&tables, &next), Ok(()));
                assert!(alike(&tables, &plan, &next), "{plan:?} {law} {place}");
            }
        }
    }
    assert!(applied > 500, "{applied}");
}

#[test]
fn checker_leaves_areas_as_said() {
    let mut random = Random::new(9);
    for _ in 0..4000 {
        let case = check_case(&mut random);
        let checked = case.run();
        let (steps, size) = match checked.answer {
            checking::Answer::Refused(_) => {
                assert_eq!((checked.a, checked.b), (case.a, case.b));
                continue;
            }
            checking::Answer::Accepted { steps, size } => (steps, size),
            checking::Answer::Back { steps, size, .. } => (steps, size),
        };
        let mut plans = vec![vec![], case.start.clone()];
        for record in cut(&case.rewriting).unwrap().iter().take(steps) {
            plans.push(step(&case.tables, &plans[plans.len() - 1], record).unwrap());
        }
        let (reached, before) = (&plans[steps + 1], &plans[steps]);
        assert_eq!(reached.len(), size);
        let (in_a, in_b) = if steps.is_multiple_of(2) {
            (reached, before)
        } else {
            (before, reached)
        };
        assert_holds(&checked.a, in_a);
        assert_holds(&checked.b, in_b);
    }
}

fn assert_holds(area: &[u8], plan: &[u8]) {
    assert_eq!(&area[..plan.len()], plan);
    assert!(area[plan.len()..].iter().all(|&byte| byte == 0));
}

#[test]
fn station_files_are_read_back() {
    let mut random = Random::new(10);
    for _ in 0..1000 {
        let tables = lawful_tables(&mut random);
        let plan = any_plan(&mut random, tables[0]);
        let file = station_file(&tables, &plan);
        let (mut got_tables, mut got_plan) = (vec![3; TABLES_LENGTH + 2], vec![3; plan.len() + 1]);
        let read = read_station(&file, &mut got_tables, &mut got_plan);
        assert_eq!(read, Ok(plan.len()));
        assert_holds(&got_tables, &tables);
        assert_holds(&got_plan, &plan);
        let small = read_station(&file, &mut got_tables, &mut got_plan[..plan.len() - 1]);
        assert_eq!(small.unwrap_err().number, 55);
    }
}

#[test]
fn refused_files_touch_nothing() {
    let mut random = Random::new(11);
    for _ in 0..3000 {
        let case = station_case(&mut random);
        let read = case.run();
        if read.answer.is_err() {
            assert_eq!((read.tables, read.plan), (case.tables, case.plan));
        }
    }
}

#[test]
fn the_program_prints_what_was_reached() {
    let mut random = Random::new(12);
    for _ in 0..300 {
        let (file, _) = any_file(&mut random);
        let printed = program(&file);
        let first: Vec<&str> = printed.lines().next().unwrap().split(' ').collect();
        if first[0] == "refused" {
            assert_eq!((first.len(), printed.lines().count()), (3, 1));
            continue;
        }
        assert!(["0", "34", "36"].contains(&first[1]));
        assert_eq!((first[6], first[8], first.len()), ("orders", "stuck", 10));
        assert_eq!(first[1] == "0", (first[7], first[9]) != ("0", "0"));
        let steps: usize = first[3].parse().unwrap();
        assert_eq!(printed.lines().count(), 2 + steps);
        let size: usize = first[5].parse().unwrap();
        assert_eq!(printed.lines().nth(1).unwrap().split(' ').count(), size);
        assert!(printed.ends_with('\n') && !printed.contains(" \n"));
    }
}

#[test]
fn program_refuses() {
    let tables = trial_tables();
    assert_eq!(program(&[]), "refused 51 0\n");
    assert_eq!(
        program(&station_file(&tables, &[64, 255])),
        "refused 13 0\n"
    );
    assert_eq!(
        program(&station_file(&tables, &[1; 8193])),
        "refused 55 0\n"
    );
    let mut broken = tables.clone();
    broken[1 + 32 * 3 + 3] = 1;
    assert_eq!(program(&station_file(&broken, &[1])), "refused 6 1091\n");
}

#[test]
fn a_long_replay_is_quick() {
    // Four thousand exchanges on a sum of 8,191 words.
    let tables = trial_tables();
    let mut start = vec![1];
    (0..4095).for_each(|_| start.extend([2, 64]));
    let place = start.len() - 1;
    let record = unfolding::record(1, place);
    let rewriting = record.repeat(4000);
    let (mut a, mut b) = (vec![0; 8191], vec![0; 8191]);
    let answer = check_rewriting(&tables, &start, &start, &rewriting, &mut a, &mut b);
    assert_eq!(
        answer,
        checking::Answer::Accepted {
            steps: 4000,
            size: 8191
        }
    );
}
