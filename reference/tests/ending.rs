//! Every plan ends: what request 109 says of the unfolding, tried on every small plan and on random
//! ones.

use reference::ending::{next_plan, whole_run, Budget, WholeRun};
use reference::plans::{is_basic, LONGEST_PLAN};
use reference::random::cases::{UnfoldCase, Unfolded};
use reference::random::ending::{ended, ending_case, growing_plan, larger_case, Ended, SOON};
use reference::random::plans::every_plan;
use reference::random::tables::lawful_tables_over;
use reference::random::Random;
use reference::tables::trial_tables;
use reference::unfolding::{Answer, RECORD};

/// The words of which every small plan is made.
const WORDS: [u8; 12] = [0, 1, 2, 4, 64, 65, 66, 67, 68, 69, 70, 80];
/// Once in so many random cases the run has a plan about as long as a plan may be.
const LONG_ONCE_IN: usize = 100;
const MOST: u32 = u32::MAX;

/// Every plan of at most so many words, with the trial tables and with others, and so many random
/// ones.
fn cases(random: &mut Random, words: usize, drawn: usize) -> Vec<Ended> {
    let mut found = Vec::new();
    for plan in (1..=words).flat_map(|size| every_plan(&WORDS, size)) {
        let tables = match random.once_in(2) {
            true => trial_tables(),
            false => lawful_tables_over(random, 4),
        };
        found.push(Ended::of(tables, plan).expect("a small plan is soon at its end"));
    }
    found.extend((0..drawn).map(|_| ended(random, LONG_ONCE_IN)));
    found
}

/// What the run needs: its steps, the bytes of their records, and the words of its longest plan.
fn needs(ended: &Ended) -> (usize, usize, usize) {
    let WholeRun { steps, longest, .. } = ended.whole;
    (steps, RECORD * steps, longest)
}

/// An unfolding in two areas of this length.
fn limited(
    random: &mut Random,
    ended: &Ended,
    allowance: usize,
    list: usize,
    area: usize,
) -> UnfoldCase {
    UnfoldCase {
        tables: ended.tables.clone(),
        plan: ended.plan.clone(),
        allowance: allowance as u32,
        list: random.lent(list),
        a: random.lent(area),
        b: random.lent(area),
    }
}

/// The same unfolding with this allowance, and other bytes in list and areas before.
fn allowed(random: &mut Random, case: &UnfoldCase, allowance: u32) -> UnfoldCase {
    let again = larger_case(random, case, 0);
    UnfoldCase { allowance, ..again }
}

/// The number it ended in, and the steps made; none where it was refused.
fn ending(unfolded: &Unfolded) -> Option<(u8, usize)> {
    match unfolded.answer {
        Answer::Ended { number, steps, .. } => Some((number, steps)),
        Answer::Refused(_) => None,
    }
}

/// The first 3 × S bytes of the list.
fn own_rewriting(unfolded: &Unfolded) -> &[u8] {
    let (_, steps) = ending(unfolded).unwrap();
    &unfolded.list[..RECORD * steps]
}

/// Whether the plan needs no more than a plan may have.
fn within_limits(ended: &Ended) -> bool {
    ended.whole.longest <= LONGEST_PLAN
}

#[test]
fn every_run_comes_to_a_basic_plan() {
    let mut random = Random::new(1091);
    let (mut most, mut longest) = (0, 0);
    for case in cases(&mut random, 6, 3000) {
        let WholeRun {
            steps,
            longest: words,
            end,
        } = &case.whole;
        assert!(is_basic(end), "{case:?}");
        assert_eq!(next_plan(&case.tables, end), None);
        assert_eq!(*steps == 0, is_basic(&case.plan), "{case:?}");
        assert!(*words >= case.plan.len().max(end.len()));
        most = most.max(*steps);
        longest = longest.max(*words);
    }
    assert!(most > 300, "{most}");
    assert_eq!(longest, SOON.words);
}

/// The budget is no part of the run: with any that is enough it is the same.
#[test]
fn the_budget_is_enough_or_nothing_comes() {
    let mut random = Random::new(1092);
    for case in cases(&mut random, 4, 500) {
        let (steps, _, words) = needs(&case);
        let run = |steps, words| whole_run(&case.tables, &case.plan, Budget { steps, words });
        assert_eq!(run(steps, words).as_ref(), Some(&case.whole));
        assert_eq!(run(usize::MAX, usize::MAX).as_ref(), Some(&case.whole));
        assert_eq!(run(steps, words - 1), None);
        if steps > 0 {
            assert_eq!(run(steps - 1, words), None);
        }
    }
    // Fourteen actions merged: nobody waits for that.
    let plan = [[1; 14].as_slice(), &[66; 13]].concat();
    assert_eq!(whole_run(&trial_tables(), &plan, SOON), None);
}

/// "Where that number and every plan of the run lie within document 01's limits, and list and areas
/// hold them, that many steps allowed give the answer finished."
#[test]
fn that_many_steps_finish() {
    let mut random = Random::new(1093);
    for case in cases(&mut random, 5, 1500) {
        let (steps, list, words) = needs(&case);
        let unfolded = limited(&mut random, &case, steps, list, words).run();
        if !within_limits(&case) {
            assert_eq!(ending(&unfolded).unwrap().0, 36);
            continue;
        }
        let end = &case.whole.end;
        let finished = Answer::Ended {
            number: 0,
            steps,
            size: end.len(),
        };
        assert_eq!(unfolded.answer, finished, "{case:?}");
        assert_eq!(unfolded.reached(), Some(&end[..]));
        assert_eq!(own_rewriting(&unfolded).len(), list);
    }
}

/// One step, one byte of the list or one word of the areas less is not enough.
#[test]
fn nothing_less_finishes() {
    let mut random = Random::new(1094);
    for case in cases(&mut random, 5, 1500)
        .iter()
        .filter(|&case| within_limits(case))
    {
        let (steps, list, words) = needs(case);
        let mut ends = |allowance: usize, list: usize, area: usize| {
            let unfolded = limited(&mut random, case, allowance, list, area).run();
            ending(&unfolded).ok_or(unfolded.answer.number())
        };
        if steps > 0 {
            let made = steps - 1;
            assert_eq!(ends(made, list, words), Ok((34, made)), "{case:?}");
            assert_eq!(ends(steps, list - 1, words), Ok((35, made)), "{case:?}");
            assert_eq!(ends(MOST as usize, list - 1, words), Ok((35, made)));
        }
        for allowance in [steps, MOST as usize] {
            match ends(allowance, list, words - 1) {
                Ok((number, made)) => assert!(number == 36 && made < steps, "{case:?}"),
                Err(number) => assert_eq!((number, words), (15, case.plan.len())),
            }
        }
    }
}

/// "A larger allowance never changes a finished answer": nor list nor areas, whatever they held.
#[test]
fn a_larger_allowance_changes_nothing() {
    let mut random = Random::new(1095);
    for case in cases(&mut random, 5, 1500)
        .iter()
        .filter(|&case| within_limits(case))
    {
        let (steps, list, words) = needs(case);
        let (list, area) = (list + random.below(5), words + random.below(5));
        let enough = limited(&mut random, case, steps, list, area);
        let finished = enough.run();
        assert_eq!(finished.answer.number(), 0);
        for larger in [steps as u32, steps as u32 + 1, 2 * steps as u32, MOST] {
            let again = allowed(&mut random, &enough, larger).run();
            assert!(again == finished, "{larger} {case:?}");
        }
    }
}

/// An unfolding and the same with no smaller an allowance, whatever they end in: the first one's
/// rewriting begins the second one's, and but for 34 all is the same. So under 35 and 36 no larger
/// allowance finishes.
#[test]
fn a_larger_allowance_goes_on() {
    let mut random = Random::new(1096);
    let mut met = [0; 4];
    for case in cases(&mut random, 5, 6000) {
        let first = ending_case(&mut random, &case);
        let larger = larger_case(&mut random, &first, case.whole.steps);
        assert!(larger.allowance >= first.allowance);
        let (one, other) = (first.run(), larger.run());
        let Some((number, made)) = ending(&one) else {
            // Refused, for the areas alone.
            assert_eq!((one.answer.number(), one.answer), (15, other.answer));
            continue;
        };
        assert!(own_rewriting(&other).starts_with(own_rewriting(&one)));
        if number == 34 {
            // More steps are made, unless list or areas are too short.
            let (allowance, further) = (first.allowance as usize, ending(&other).unwrap());
            let short = [35, 36].contains(&further.0);
            assert_eq!(made, allowance);
            assert!(further.1 > made || larger.allowance == first.allowance || short);
        } else {
            assert!(one == other, "{first:?}");
        }
        met[[0, 34, 35, 36]
            .iter()
            .position(|&met| met == number)
            .unwrap()] += 1;
    }
    assert!(met.iter().all(|&count| count > 500), "{met:?}");
}

/// Every two allowances up to what the run needs, and one more.
#[test]
fn every_smaller_allowance_begins_every_larger_one() {
    let mut random = Random::new(1097);
    for case in cases(&mut random, 4, 300) {
        let (steps, list, words) = needs(&case);
        if steps > 30 || !within_limits(&case) {
            continue;
        }
        let all: Vec<Unfolded> = (0..=steps + 1)
            .map(|allowance| limited(&mut random, &case, allowance, list, words).run())
            .collect();
        for (allowance, smaller) in all.iter().enumerate() {
            let ended = match allowance < steps {
                true => (34, allowance),
                false => (0, steps),
            };
            assert_eq!(ending(smaller), Some(ended));
            for larger in &all[allowance..] {
                assert!(own_rewriting(larger).starts_with(own_rewriting(smaller)));
            }
        }
    }
}

/// Under 34 the rest of the run begins with the plan reached: it needs the steps that are left, and
/// comes to the same plan.
#[test]
fn the_rest_of_the_run_is_what_is_left() {
    let mut random = Random::new(1098);
    let mut stopped = 0;
    for case in cases(&mut random, 5, 1500)
        .iter()
        .filter(|&case| within_limits(case))
    {
        let (steps, list, words) = needs(case);
        if steps == 0 {
            continue;
        }
        let made = random.below(steps);
        let unfolded = limited(&mut random, case, made, list, words).run();
        assert_eq!(ending(&unfolded), Some((34, made)));
        let rest = whole_run(&case.tables, unfolded.reached().unwrap(), SOON).unwrap();
        assert_eq!((rest.steps, &rest.end), (steps - made, &case.whole.end));
        assert!(rest.longest <= words);
        stopped += 1;
    }
    assert!(stopped > 5000, "{stopped}");
}

/// A run whose longest plan has 16,384 words finishes, and one with a word more never does, however
/// long list and areas are.
#[test]
fn a_plan_is_as_long_as_it_may_be() {
    let mut random = Random::new(1099);
    for longest in (10..60).chain([LONGEST_PLAN - 1, LONGEST_PLAN, LONGEST_PLAN + 1]) {
        let plan = growing_plan(&mut random, 4, longest);
        assert!(plan.len() < longest);
        let case = Ended::of(trial_tables(), plan).unwrap();
        let (steps, list, words) = needs(&case);
        assert_eq!((steps, words), (2 - longest % 2, longest));
        let room = longest + 3;
        let number = if longest > LONGEST_PLAN { 36 } else { 0 };
        for allowance in [steps, MOST as usize] {
            let unfolded = limited(&mut random, &case, allowance, list, room).run();
            assert_eq!(unfolded.answer.number(), number, "{longest}");
        }
    }
}
