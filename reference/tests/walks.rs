//! Walks: which messages are taken, the progress after each, and what is refused.

use reference::plans::{
    is_basic, judge, starts, subplan, term, Term, CHOICE, LONGEST_PLAN, PRODUCT,
};
use reference::random::plans::{every_plan, repeating_basic_plan, NOT_BASIC};
use reference::random::walks::{
    any_marks, fresh_walk_case, messages_case, walk_case, WalkCase, Walked,
};
use reference::random::Random;
use reference::tables::{trial_tables, TABLES_LENGTH};
use reference::trees::{alike, Forest, Tree};
use reference::walks::{branches, fresh_walk, walk};
use reference::Refusal;
use std::collections::{BTreeMap, BTreeSet};

/// Accepted tables over n actions, without communication.
fn tables_over(n: u8) -> Vec<u8> {
    let mut tables = vec![0; TABLES_LENGTH];
    tables[0] = n;
    (1..=n as usize).for_each(|a| tables[1025 + a] = 1);
    tables
}

/// Tables, a plan and a progress through it.
#[derive(Clone, Debug)]
struct Hub {
    tables: Vec<u8>,
    plan: Vec<u8>,
    marks: Vec<u8>,
    finished: bool,
}

impl Hub {
    /// A fresh walk over n actions, begun where another progress was before.
    fn fresh(n: u8, plan: &[u8]) -> Hub {
        let mut hub = Hub::marked(n, plan, &[]);
        hub.marks.fill(0xEE);
        hub.finished = true;
        let begun = fresh_walk(&hub.tables, plan, &mut hub.marks, &mut hub.finished);
        assert_eq!(begun, Ok(()), "{plan:?}");
        hub.is_at(&[plan.len() - 1], false);
        hub
    }

    /// A walk over n actions with marks at these places, and no finish reached.
    fn marked(n: u8, plan: &[u8], places: &[usize]) -> Hub {
        let mut hub = Hub {
            tables: tables_over(n),
            plan: plan.to_vec(),
            marks: vec![0; plan.len()],
            finished: false,
        };
        places.iter().for_each(|&place| hub.marks[place] = 1);
        hub
    }

    /// Hands a message in. The progress afterwards does not depend on whether a finish was
    /// reached; under a refusal it is as before.
    fn hand(&mut self, message: u8) -> Result<(), Refusal> {
        let [one, other] = [self.finished, !self.finished].map(|finished| {
            let (mut marks, mut flag) = (self.marks.clone(), finished);
            let answer = walk(&self.tables, &self.plan, &mut marks, message, &mut flag);
            if answer.is_err() {
                assert_eq!((&marks, flag), (&self.marks, finished), "{self:?}");
            }
            (answer, marks, flag)
        });
        let (answer, marks, finished) = one.clone();
        assert!(answer.is_err() || one == other, "{message} in {self:?}");
        assert_eq!(answer, other.0, "{message} in {self:?}");
        (self.marks, self.finished) = (marks, finished);
        answer
    }

    /// Hands in a message that is taken, and looks where the walk is then.
    fn takes(&mut self, message: u8, places: &[usize], finished: bool) {
        assert_eq!(self.hand(message), Ok(()), "{message} in {self:?}");
        self.is_at(places, finished);
    }

    /// Every action but these is refused with 72.
    fn takes_only(&self, taken: &[u8]) {
        for message in 1..=self.tables[0] {
            let wanted = match taken.contains(&message) {
                true => Ok(()),
                false => Err(Refusal::nowhere(72)),
            };
            assert_eq!(self.clone().hand(message), wanted, "{message} in {self:?}");
        }
    }

    /// "a mark is written as 1": there are marks of 1 at these places, and zeros elsewhere.
    fn is_at(&self, places: &[usize], finished: bool) {
        let wanted = (0..self.plan.len()).map(|place| places.contains(&place) as u8);
        assert_eq!(self.marks, wanted.collect::<Vec<u8>>(), "{:?}", self.plan);
        assert_eq!(self.finished, finished, "{:?}", self.plan);
    }
}

#[test]
fn fresh_walks() {
    for plan in [
        &[0][..],
        &[3],
        &[1, 0, 65],
        &[1, 2, 65, 1, 3, 65, 64],
        &[1, 0, 65, 2, 64],
    ] {
        Hub::fresh(4, plan);
    }
    let mut longest = vec![1; LONGEST_PLAN / 2];
    longest.resize(LONGEST_PLAN - 1, 65);
    Hub::fresh(1, &longest);
}

#[test]
fn one_message_leads_to_several_subplans() {
    let mut hub = Hub::fresh(4, &[1, 2, 65, 1, 3, 65, 64]);
    hub.takes_only(&[1]);
    hub.takes(1, &[1, 4], false);
    hub.takes_only(&[2, 3]);
    hub.clone().takes(2, &[], true);
    hub.takes(3, &[], true);
    // Subplans of the same words at two places are two marks.
    let mut hub = Hub::fresh(4, &[1, 2, 65, 1, 2, 65, 64]);
    hub.takes(1, &[1, 4], false);
    hub.takes(2, &[], true);
    // A sum that follows is one mark, at its last word.
    let mut hub = Hub::fresh(4, &[1, 2, 3, 64, 65]);
    hub.takes(1, &[3], false);
    hub.takes_only(&[2, 3]);
}

#[test]
fn a_finish_is_no_mark() {
    let mut hub = Hub::fresh(4, &[2]);
    hub.takes_only(&[2]);
    hub.takes(2, &[], true);
    hub.takes_only(&[]);
    hub.is_at(&[], true);
    // A finish, or a further message: both are there.
    let mut hub = Hub::fresh(4, &[1, 1, 2, 65, 64]);
    hub.takes(1, &[2], true);
    hub.takes(2, &[], true);
    hub.takes_only(&[]);
}

#[test]
fn a_finish_is_reached_by_exactly_the_messages_so_far() {
    let mut hub = Hub::fresh(4, &[1, 1, 2, 3, 65, 65, 64]);
    hub.takes(1, &[4], true);
    hub.takes_only(&[2]);
    assert_eq!(hub.hand(1), Err(Refusal::nowhere(72)));
    hub.is_at(&[4], true);
    hub.takes(2, &[3], false);
    assert_eq!(hub.hand(2), Err(Refusal::nowhere(72)));
    hub.is_at(&[3], false);
    hub.takes(3, &[], true);
}

#[test]
fn dead_stop_takes_nothing() {
    Hub::fresh(4, &[0]).takes_only(&[]);
    let mut hub = Hub::fresh(4, &[1, 0, 65]);
    hub.takes(1, &[1], false);
    hub.takes_only(&[]);
    hub.is_at(&[1], false);
    // Stuck, or finished: the finish is told, and the mark at dead stop is there.
    let mut hub = Hub::fresh(4, &[1, 0, 65, 1, 64]);
    hub.takes(1, &[1], true);
    hub.takes_only(&[]);
}

#[test]
fn any_set_of_marks_is_a_progress() {
    // The first factor of a product is a subplan of its own.
    let plan = [1, 2, 65];
    Hub::marked(4, &plan, &[0]).takes(1, &[], true);
    Hub::marked(4, &plan, &[0]).takes_only(&[1]);
    Hub::marked(4, &plan, &[1]).takes(2, &[], true);
    Hub::marked(4, &plan, &[0, 1]).takes_only(&[1, 2]);
    Hub::marked(4, &plan, &[0, 2]).takes(1, &[1], true);
    Hub::marked(4, &plan, &[2]).takes(1, &[1], false);
    Hub::marked(4, &plan, &[0, 1, 2]).takes(2, &[], true);
    // Dead stop, a product and a sum inside.
    Hub::marked(4, &[1, 0, 65], &[1]).takes_only(&[]);
    let plan = [1, 2, 3, 65, 2, 4, 65, 64, 65];
    Hub::marked(4, &plan, &[3]).takes(2, &[2], false);
    Hub::marked(4, &plan, &[7]).takes(2, &[2, 5], false);
    Hub::marked(4, &plan, &[7]).takes_only(&[2]);
    Hub::marked(4, &plan, &[4, 6, 8]).takes(2, &[5], true);
    Hub::marked(4, &plan, &[4, 6, 8]).takes(1, &[7], false);
    Hub::marked(4, &plan, &[2, 5, 8]).takes_only(&[1, 3, 4]);
    Hub::marked(4, &plan, &[]).takes_only(&[]);
}

#[test]
fn any_byte_but_zero_reads_as_a_mark() {
    let plan = [1, 2, 65, 1, 3, 65, 64];
    for byte in 1..=255 {
        let mut hub = Hub::marked(4, &plan, &[]);
        hub.marks[6] = byte;
        hub.takes_only(&[1]);
        hub.takes(1, &[1, 4], false);
        (hub.marks[1], hub.marks[4], hub.marks[3]) = (0, byte, byte);
        hub.takes_only(&[1, 3]);
        hub.takes(3, &[], true);
    }
}

/// What both calls answer to these, the second one to this message; nothing is changed.
fn refused(tables: &[u8], plan: &[u8], marks: &[u8], message: u8) -> [Refusal; 2] {
    let mut refusals = [Refusal::nowhere(0); 2];
    for finished in [false, true] {
        let (mut after, mut flag) = (marks.to_vec(), finished);
        if let Err(refusal) = fresh_walk(tables, plan, &mut after, &mut flag) {
            assert_eq!((&after[..], flag), (marks, finished));
            refusals[0] = refusal;
        }
        let (mut after, mut flag) = (marks.to_vec(), finished);
        if let Err(refusal) = walk(tables, plan, &mut after, message, &mut flag) {
            assert_eq!((&after[..], flag), (marks, finished));
            refusals[1] = refusal;
        }
    }
    refusals
}

#[test]
fn plans_that_are_not_basic() {
    let (tables, both) = (tables_over(4), [Refusal::nowhere(70); 2]);
    for plan in NOT_BASIC {
        for mark in [0, 1, 7] {
            let marks = vec![mark; plan.len()];
            assert_eq!(refused(&tables, plan, &marks, 1), both, "{plan:?}");
            // Marks of another length are no other fault.
            assert_eq!(refused(&tables, plan, &marks[1..], 1), both);
        }
    }
}

#[test]
fn marks_of_another_length() {
    let (tables, both) = (tables_over(4), [Refusal::nowhere(70); 2]);
    let mut longest = vec![1; LONGEST_PLAN / 2];
    longest.resize(LONGEST_PLAN - 1, 64);
    for plan in [&[1][..], &[1, 2, 65], &[0], &longest] {
        for length in [0, 1, 2, 3, 4, 16_382, 16_383, 16_384, 16_385, 100_000] {
            if length == plan.len() {
                continue;
            }
            for mark in [0, 1, 255] {
                assert_eq!(refused(&tables, plan, &vec![mark; length], 1), both);
            }
        }
    }
}

#[test]
fn messages_outside_1_to_n() {
    for n in 1..=31 {
        let mut hub = Hub::fresh(n, &[n]);
        for message in 0..=255 {
            let wanted = match message {
                _ if message == n => Ok(()),
                1.. if message < n => Err(Refusal::nowhere(72)),
                _ => Err(Refusal::nowhere(71)),
            };
            assert_eq!(hub.clone().hand(message), wanted, "{message} of {n}");
        }
        // They are refused in the same way where nothing is marked.
        hub.marks.fill(0);
        for message in 0..=255 {
            let number = if (1..=n).contains(&message) { 72 } else { 71 };
            assert_eq!(hub.clone().hand(message), Err(Refusal::nowhere(number)));
        }
    }
    // Neither dead stop nor a sign is a message, though both are words of the plan.
    let mut hub = Hub::marked(4, &[1, 0, 65, 2, 64], &[0, 1, 2, 3, 4]);
    for message in [0, 64, 65] {
        assert_eq!(hub.hand(message), Err(Refusal::nowhere(71)));
    }
}

#[test]
fn the_order_of_refusals() {
    let refuses = |tables: &[u8], plan: &[u8], marks: &[u8], message, numbers: [u8; 2]| {
        let refusals = refused(tables, plan, marks, message);
        assert_eq!(refusals.map(|refusal| refusal.number), numbers);
    };
    let (tables, mut wrong) = (tables_over(4), tables_over(4));
    wrong[0] = 32;
    let (basic, other, no_plan) = ([1, 2, 65], [1, 2, 66], [1, 2]);
    // Every fault, and then one after the other mended.
    refuses(&wrong[1..], &no_plan, &[], 0, [1, 1]);
    refuses(&wrong, &no_plan, &[], 0, [2, 2]);
    refuses(&tables, &[], &[], 0, [11, 11]);
    refuses(&tables, &no_plan, &[], 0, [14, 14]);
    refuses(&tables, &other, &[], 0, [70, 70]);
    refuses(&tables, &other, &[0; 3], 0, [70, 70]);
    refuses(&tables, &basic, &[], 0, [70, 70]);
    refuses(&tables, &basic, &[], 5, [70, 70]);
    refuses(&tables, &basic, &[0; 3], 0, [0, 71]);
    refuses(&tables, &basic, &[0; 3], 5, [0, 71]);
    refuses(&tables, &basic, &[0; 3], 1, [0, 72]);
    refuses(&tables, &basic, &[0, 0, 1], 2, [0, 72]);
    refuses(&tables, &basic, &[0, 0, 1], 1, [0, 0]);
    // A plan's fault comes after the tables', and has its place.
    refuses(&wrong, &basic, &[0, 0, 1], 1, [2, 2]);
    let refusals = refused(&tables, &[1, 5, 65], &[0; 3], 1);
    assert_eq!(refusals, [Refusal::at_byte(12, 1); 2]);
    let refusals = refused(&tables, &[1, 64, 65], &[0; 3], 1);
    assert_eq!(refusals, [Refusal::at_byte(13, 1); 2]);
    for number in [70, 71, 72] {
        assert_eq!(Refusal::nowhere(number).printed(), 0);
    }
}

#[test]
fn long_plans() {
    let half = LONGEST_PLAN / 2;
    // 1·(1·(1· …)): the plan after so many messages ends so many words before the last.
    let mut chain = vec![1; half];
    chain.resize(LONGEST_PLAN - 1, 65);
    let mut hub = Hub::fresh(2, &chain);
    for taken in 1..=40 {
        assert_eq!(hub.hand(2), Err(Refusal::nowhere(72)));
        hub.takes(1, &[chain.len() - 1 - taken], false);
    }
    let mut hub = Hub::marked(2, &chain, &[half]);
    hub.takes(1, &[half - 1], false);
    hub.takes(1, &[], true);
    // Sums that group to the right and to the left, every subplan marked.
    let mut left = vec![1];
    while left.len() < LONGEST_PLAN - 1 {
        left.extend([2, 64]);
    }
    let mut right = vec![2; half];
    right[0] = 1;
    right.resize(LONGEST_PLAN - 1, 64);
    for plan in [left, right] {
        let every: Vec<usize> = (0..plan.len()).collect();
        let mut hub = Hub::marked(3, &plan, &every);
        hub.takes_only(&[1, 2]);
        hub.takes(2, &[], true);
        hub.takes_only(&[]);
    }
    // As many marks as there are products in a sum of them.
    let mut plan = vec![1, 2, 65];
    while plan.len() < LONGEST_PLAN - 1 {
        plan.extend([1, 3, 65, 64]);
    }
    let second = |place: &usize| [2, 3].contains(&plan[*place]);
    let seconds: Vec<usize> = (0..plan.len()).filter(second).collect();
    assert_eq!(seconds.len(), LONGEST_PLAN / 4);
    let mut hub = Hub::fresh(3, &plan);
    hub.takes(1, &seconds, false);
    hub.takes_only(&[2, 3]);
}

/// The branches of the tree of the subplan at a place of a small basic plan, from its words:
/// actions, and the places of the subplans that they lead to.
fn steps(plan: &[u8], place: usize) -> Vec<(u8, Option<usize>)> {
    let left = || place - 1 - subplan(plan, place - 1).len();
    match plan[place] {
        0 => vec![],
        CHOICE => [steps(plan, left()), steps(plan, place - 1)].concat(),
        PRODUCT => {
            let of_first = steps(plan, left()).into_iter();
            let follow = |(action, finish)| match finish {
                None => (action, Some(place - 1)),
                Some(_) => unreachable!("the first factor is an action"),
            };
            of_first.map(follow).collect()
        }
        action => vec![(action, None)],
    }
}

/// Every basic plan of at most so many words over dead stop and two actions.
fn small_basic_plans(most: usize) -> Vec<Vec<u8>> {
    let plans = (1..=most).flat_map(|size| every_plan(&[0, 1, 2, 64, 65], size));
    plans.filter(|plan| is_basic(plan)).collect()
}

#[test]
fn every_small_plan_with_every_set_of_marks() {
    let plans = small_basic_plans(7);
    // With one action word to four: each is dead stop, an action, a product or a sum.
    assert_eq!(plans.len(), 3 + 10 + 60 + 460);
    let mut counts = [0, 0];
    for plan in plans {
        for set in 0..1 << plan.len() {
            let places: Vec<usize> = (0..plan.len()).filter(|p| set >> p & 1 == 1).collect();
            let hub = Hub::marked(2, &plan, &places);
            let all = places.iter().flat_map(|&place| steps(&plan, place));
            let all: BTreeSet<(u8, Option<usize>)> = all.collect();
            assert_eq!(branches(&plan, &hub.marks), all);
            for message in [1, 2] {
                let ends = all.iter().filter(|(action, _)| *action == message);
                let ends: Vec<Option<usize>> = ends.map(|(_, end)| *end).collect();
                let mut hub = hub.clone();
                if ends.is_empty() {
                    assert_eq!(hub.hand(message), Err(Refusal::nowhere(72)));
                } else {
                    let led: Vec<usize> = ends.iter().flatten().copied().collect();
                    hub.takes(message, &led, ends.contains(&None));
                }
                counts[usize::from(ends.is_empty())] += 1;
            }
        }
    }
    assert!(counts.iter().all(|&count| count > 20_000), "{counts:?}");
}

/// The beginnings of all paths of a tree: for each the trees that it can have led to, and whether
/// it can end in a finish.
type Paths = BTreeMap<Vec<u8>, (BTreeSet<Tree>, bool)>;

/// Goes along every path of a tree.
fn paths(forest: &Forest, tree: Tree) -> Paths {
    let mut found = Paths::new();
    found.insert(vec![], ([tree].into(), false));
    let mut waiting = vec![(Vec::new(), tree)];
    while let Some((path, tree)) = waiting.pop() {
        for &(action, further) in forest.branches(tree) {
            let longer = [&path[..], &[action]].concat();
            let (trees, finish) = found.entry(longer.clone()).or_default();
            match further {
                None => *finish = true,
                Some(further) => {
                    trees.insert(further);
                    waiting.push((longer, further));
                }
            }
        }
    }
    found
}

/// Hands every list of messages to a fresh walk, and compares each with the paths. A refused
/// message changes nothing, so a list is gone on with only behind one that was taken. How many
/// were taken and refused.
fn every_list(n: u8, plan: &[u8]) -> [usize; 2] {
    let tables = tables_over(n);
    let mut forest = Forest::new(&tables);
    let whole = forest.tree_of(plan);
    let paths = paths(&forest, whole);
    let mut counts = [0, 0];
    let mut waiting = vec![(Vec::new(), Hub::fresh(n, plan))];
    while let Some((list, hub)) = waiting.pop() {
        let marked = (0..plan.len()).filter(|&place| hub.marks[place] != 0);
        let marked = marked.map(|place| forest.tree_of(subplan(plan, place)));
        let (trees, finish) = &paths[&list];
        assert_eq!(&marked.collect::<BTreeSet<Tree>>(), trees, "{plan:?}");
        assert_eq!(hub.finished, *finish, "{list:?} in {plan:?}");
        for message in 1..=n {
            let longer = [&list[..], &[message]].concat();
            let mut hub = hub.clone();
            let taken = hub.hand(message).is_ok();
            assert_eq!(taken, paths.contains_key(&longer), "{longer:?} in {plan:?}");
            counts[usize::from(!taken)] += 1;
            if taken {
                waiting.push((longer, hub));
            }
        }
    }
    assert_eq!(counts[0], paths.len() - 1);
    counts
}

#[test]
fn a_message_is_taken_exactly_when_some_path_begins_so() {
    let mut random = Random::new(71);
    let mut counts = [0, 0];
    for _ in 0..3000 {
        let (n, actions) = (random.between(1, 3) as u8, random.between(1, 14));
        let plan = repeating_basic_plan(&mut random, n, actions);
        let [taken, refused] = every_list(n, &plan);
        counts = [counts[0] + taken, counts[1] + refused];
    }
    for plan in small_basic_plans(7) {
        every_list(2, &plan);
    }
    assert!(counts.iter().all(|&count| count > 8000), "{counts:?}");
}

#[test]
fn refused_messages_are_no_part_of_the_path() {
    let mut random = Random::new(72);
    let mut counts = [0, 0];
    for _ in 0..2000 {
        let (n, actions) = (random.between(1, 3) as u8, random.between(1, 14));
        let plan = repeating_basic_plan(&mut random, n, actions);
        let tables = tables_over(n);
        let mut forest = Forest::new(&tables);
        let whole = forest.tree_of(&plan);
        let paths = paths(&forest, whole);
        let (mut hub, mut taken) = (Hub::fresh(n, &plan), Vec::new());
        for _ in 0..10 {
            let message = random.between(0, n as usize + 1) as u8;
            let longer = [&taken[..], &[message]].concat();
            let wanted = match paths.contains_key(&longer) {
                true => Ok(()),
                false if (1..=n).contains(&message) => Err(Refusal::nowhere(72)),
                false => Err(Refusal::nowhere(71)),
            };
            assert_eq!(hub.hand(message), wanted, "{longer:?} in {plan:?}");
            if wanted.is_ok() {
                taken = longer;
            }
            assert_eq!(hub.finished, paths[&taken].1, "{taken:?} in {plan:?}");
            counts[usize::from(wanted.is_err())] += 1;
        }
    }
    assert!(counts.iter().all(|&count| count > 3000), "{counts:?}");
}

/// The same basic plan drawn in another way: summands in another order, in other groups and more
/// than once, in every remainder too.
fn redrawn(random: &mut Random, plan: &Term) -> Vec<u8> {
    let (mut summands, mut waiting) = (Vec::new(), vec![plan]);
    while let Some(part) = waiting.pop() {
        match part {
            Term::Two(CHOICE, x, y) => waiting.extend([&**x, &**y]),
            _ => summands.push(part),
        }
    }
    let is_sum_plan = !matches!(plan, Term::Action(0));
    while is_sum_plan && random.once_in(3) {
        summands.push(random.pick(&summands));
    }
    let mut drawn: Vec<Vec<u8>> = Vec::new();
    for summand in summands {
        let words = match summand {
            Term::Two(_, a, x) => [words_of_action(a), redrawn(random, x), vec![PRODUCT]].concat(),
            action => words_of_action(action),
        };
        drawn.insert(random.below(drawn.len() + 1), words);
    }
    while drawn.len() > 1 {
        let at = random.below(drawn.len() - 1);
        let y = drawn.remove(at + 1);
        drawn[at].extend(y);
        drawn[at].push(CHOICE);
    }
    drawn.remove(0)
}

fn words_of_action(action: &Term) -> Vec<u8> {
    match action {
        Term::Action(a) => vec![*a],
        _ => unreachable!("the first factor is an action"),
    }
}

/// Hands the same messages to a fresh walk of either plan: answers and finishes are the same.
/// How many were taken.
fn answer_the_same(random: &mut Random, n: u8, plan: &[u8], other: &[u8]) -> usize {
    let (mut hub, mut with_other) = (Hub::fresh(n, plan), Hub::fresh(n, other));
    let mut taken = 0;
    for _ in 0..8 {
        let ways: Vec<_> = branches(plan, &hub.marks).into_iter().collect();
        let message = match ways.is_empty() || random.once_in(3) {
            true => random.between(1, n as usize) as u8,
            false => random.pick(&ways).0,
        };
        let answer = hub.hand(message);
        assert_eq!(answer, with_other.hand(message), "{plan:?} {other:?}");
        assert_eq!(hub.finished, with_other.finished, "{plan:?} {other:?}");
        taken += usize::from(answer.is_ok());
    }
    taken
}

#[test]
fn plans_that_are_alike_answer_alike() {
    let mut random = Random::new(73);
    let (mut taken, mut otherwise) = (0, 0);
    for _ in 0..1500 {
        let (n, actions) = (random.between(1, 3) as u8, random.between(1, 12));
        let plan = repeating_basic_plan(&mut random, n, actions);
        let other = redrawn(&mut random, &term(&plan));
        assert!(alike(&tables_over(n), &plan, &other), "{plan:?} {other:?}");
        otherwise += usize::from(plan != other);
        taken += answer_the_same(&mut random, n, &plan, &other);
    }
    assert!(taken > 2000 && otherwise > 700, "{taken} {otherwise}");
}

#[test]
fn plans_with_the_same_paths_answer_alike() {
    // These two are not alike, and yet no list of messages tells them apart.
    let (plan, other) = ([1, 2, 3, 64, 65], [1, 2, 65, 1, 3, 65, 64]);
    assert!(!alike(&trial_tables(), &plan, &other));
    let mut random = Random::new(74);
    for _ in 0..200 {
        answer_the_same(&mut random, 4, &plan, &other);
    }
    // A finish and dead stop are told apart by the finish alone.
    let (mut hub, mut stuck) = (Hub::fresh(4, &[1]), Hub::fresh(4, &[1, 0, 65]));
    hub.takes(1, &[], true);
    stuck.takes(1, &[1], false);
}

/// Those kinds that are there.
fn kinds(all: &[(&'static str, bool)]) -> Vec<&'static str> {
    all.iter()
        .filter(|(_, here)| *here)
        .map(|one| one.0)
        .collect()
}

/// The names of 1 to 14.
const NUMBERS: [&str; 15] = [
    "", "1", "2", "3", "4", "5", "6", "7", "8", "", "", "11", "12", "13", "14",
];

/// The endings of an outcome that is 1 to 14 or 70: these have to do with no message.
fn judged(tables: &[u8], plan: &[u8], marks: &[u8], outcome: &Walked) -> Option<Vec<&'static str>> {
    if let Err(refusal) = judge(tables, plan) {
        assert_eq!(outcome.answer, Err(refusal));
        return Some(vec![NUMBERS[refusal.number as usize]]);
    }
    let (basic, length) = (is_basic(plan), marks.len());
    if basic && length == plan.len() {
        return None;
    }
    assert_eq!(outcome.answer, Err(Refusal::nowhere(70)));
    Some(kinds(&[
        ("70, not basic", !basic && length == plan.len()),
        (
            "70, not basic, other length",
            !basic && length != plan.len(),
        ),
        ("70, shorter", basic && length < plan.len()),
        ("70, by one shorter", basic && length + 1 == plan.len()),
        ("70, longer", basic && length > plan.len()),
        ("70, by one longer", basic && length == plan.len() + 1),
        ("70, no marks", basic && length == 0),
    ]))
}

/// The endings of [`judged`].
const JUDGED: [&str; 19] = [
    "1",
    "2",
    "3",
    "4",
    "5",
    "6",
    "7",
    "8",
    "11",
    "12",
    "13",
    "14",
    "70, not basic",
    "70, not basic, other length",
    "70, shorter",
    "70, by one shorter",
    "70, longer",
    "70, by one longer",
    "70, no marks",
];

/// The endings that a case of a message is one of.
fn endings(case: &WalkCase) -> Vec<&'static str> {
    let (outcome, message) = (case.run(), case.message);
    if outcome.answer.is_err() {
        assert_eq!(outcome.marks, case.marks);
        assert_eq!(outcome.finished, case.finished);
    }
    if let Some(mut endings) = judged(&case.tables, &case.plan, &case.marks, &outcome) {
        let outside = message == 0 || message > 31;
        if outside && outcome.answer == Err(Refusal::nowhere(70)) {
            endings.push("70, message outside");
        }
        return endings;
    }
    let n = case.tables[0];
    if message == 0 || message > n {
        assert_eq!(outcome.answer, Err(Refusal::nowhere(71)));
        return kinds(&[
            ("71, dead stop", message == 0),
            ("71, n + 1", message == n + 1),
            ("71, far above", message > 32),
        ]);
    }
    let unmarked = case.marks.iter().all(|&mark| mark == 0);
    if outcome.answer.is_err() {
        assert_eq!(outcome.answer, Err(Refusal::nowhere(72)));
        return kinds(&[
            ("72", true),
            ("72, nothing marked", unmarked),
            ("72, message of the plan", case.plan.contains(&message)),
        ]);
    }
    taken(case, &outcome)
}

/// The endings of a message that was taken.
fn taken(case: &WalkCase, outcome: &Walked) -> Vec<&'static str> {
    assert!(outcome.marks.iter().all(|&mark| mark <= 1));
    let left = outcome.marks.iter().filter(|&&mark| mark == 1).count();
    let finished = outcome.finished;
    // Whether it is taken from the marks alone that these are.
    let from = |kept: &dyn Fn(usize) -> bool| {
        let mut alone = case.clone();
        (0..alone.marks.len()).for_each(|place| alone.marks[place] *= kept(place) as u8);
        alone.run().answer.is_ok()
    };
    let starts = starts(&case.plan);
    let products = (0..case.plan.len()).filter(|&place| case.plan[place] == PRODUCT);
    let firsts: BTreeSet<usize> = products.map(|place| starts[place]).collect();
    let by_first = !firsts.is_empty() && from(&|place| firsts.contains(&place));
    let by_others = from(&|place| !firsts.contains(&place));
    let before = case.marks.iter().filter(|&&mark| mark != 0).count();
    kinds(&[
        ("taken, no finish", !finished),
        ("taken, finish, no mark left", finished && left == 0),
        ("taken, finish, one mark", finished && left == 1),
        ("taken, finish, several marks", finished && left > 1),
        ("taken, no finish, several marks", !finished && left > 1),
        ("taken, from one mark", before == 1),
        ("taken, from several marks", before > 1),
        ("taken, from no 1", !case.marks.contains(&1)),
        (
            "taken, from even bytes",
            case.marks.iter().all(|m| m % 2 == 0),
        ),
        ("taken, by a first factor alone", by_first && !by_others),
        ("taken, finish no more", case.finished && !finished),
        ("taken, finish now", !case.finished && finished),
        ("taken, longest plan", case.plan.len() == LONGEST_PLAN - 1),
        ("taken, n", case.message == case.tables[0]),
    ])
}

/// The endings of messages that are not taken, or taken in a plan that is seldom drawn.
const SELDOM: [&str; 8] = [
    "70, message outside",
    "71, dead stop",
    "71, n + 1",
    "71, far above",
    "72",
    "72, nothing marked",
    "72, message of the plan",
    "taken, longest plan",
];

/// The other endings of messages that are taken.
const OFTEN: [&str; 13] = [
    "taken, no finish",
    "taken, finish, no mark left",
    "taken, finish, one mark",
    "taken, finish, several marks",
    "taken, no finish, several marks",
    "taken, from one mark",
    "taken, from several marks",
    "taken, from no 1",
    "taken, from even bytes",
    "taken, by a first factor alone",
    "taken, finish no more",
    "taken, finish now",
    "taken, n",
];

/// How often each ending came.
type Counts = BTreeMap<&'static str, usize>;

/// Those of the endings that came less often.
fn rare(counts: &Counts, wanted: &[&'static str], least: usize) -> Vec<&'static str> {
    let came = |end: &&str| counts.get(end).is_some_and(|&count| count >= least);
    wanted.iter().copied().filter(|end| !came(end)).collect()
}

#[test]
fn random_messages_reach_every_ending() {
    let mut random = Random::new(75);
    let mut counts = Counts::new();
    for _ in 0..8000 {
        for ending in endings(&walk_case(&mut random)) {
            *counts.entry(ending).or_default() += 1;
        }
    }
    let mut missing = rare(&counts, &[&JUDGED[..], &SELDOM].concat(), 5);
    missing.extend(rare(&counts, &OFTEN, 150));
    assert!(missing.is_empty(), "{missing:?} {counts:?}");
    assert_eq!(counts.len(), JUDGED.len() + SELDOM.len() + OFTEN.len());
}

#[test]
fn random_fresh_walks_reach_every_ending() {
    let mut random = Random::new(76);
    let mut counts = Counts::new();
    for _ in 0..8000 {
        let case = fresh_walk_case(&mut random);
        let outcome = case.run();
        let endings = match judged(&case.tables, &case.plan, &case.marks, &outcome) {
            Some(endings) => {
                assert_eq!(outcome.marks, case.marks);
                assert_eq!(outcome.finished, case.finished);
                endings
            }
            None => {
                assert_eq!(outcome.answer, Ok(()));
                let (last, others) = outcome.marks.split_last().unwrap();
                assert!(*last == 1 && others.iter().all(|&mark| mark == 0));
                assert!(!outcome.finished);
                kinds(&[("begun", true), ("begun, finish before", case.finished)])
            }
        };
        for ending in endings {
            *counts.entry(ending).or_default() += 1;
        }
    }
    let begun = ["begun", "begun, finish before"];
    let missing = rare(&counts, &[&JUDGED[..], &begun].concat(), 5);
    assert!(missing.is_empty(), "{missing:?} {counts:?}");
    assert_eq!(counts.len(), JUDGED.len() + begun.len());
}

#[test]
fn random_walks_go_along_paths_and_leave_them() {
    let mut random = Random::new(77);
    let mut numbers: BTreeMap<u8, usize> = BTreeMap::new();
    let (mut longest, mut taken_up_again) = (0, 0);
    for _ in 0..2000 {
        let case = messages_case(&mut random);
        let outcomes = case.run();
        assert_eq!(outcomes.len(), case.messages.len() + 1);
        assert_eq!(outcomes[0], case.fresh.run());
        let answers: Vec<bool> = outcomes.iter().map(|one| one.answer.is_ok()).collect();
        let taken = answers[1..].iter().filter(|&&taken| taken).count();
        longest = longest.max(taken);
        taken_up_again += usize::from(answers.windows(2).any(|two| two == [false, true]));
        for (before, after) in outcomes.iter().zip(&outcomes[1..]) {
            let number = after.answer.map_or_else(|refusal| refusal.number, |()| 0);
            *numbers.entry(number).or_default() += 1;
            if number != 0 {
                let progress = (&after.marks, after.finished);
                assert_eq!(progress, (&before.marks, before.finished));
            }
        }
    }
    let all = (0..=8).chain(11..=14).chain(70..=72);
    let met: BTreeSet<u8> = numbers.keys().copied().collect();
    assert_eq!(met, all.collect(), "{numbers:?}");
    assert!(longest >= 5 && taken_up_again > 100, "{numbers:?}");
}

#[test]
fn bytes_of_marks_do_not_matter() {
    let mut random = Random::new(78);
    let mut taken = 0;
    for _ in 0..2000 {
        let (n, actions) = (random.between(1, 4) as u8, random.between(1, 12));
        let plan = repeating_basic_plan(&mut random, n, actions);
        let mut hub = Hub::marked(n, &plan, &[]);
        hub.marks = any_marks(&mut random, &hub.tables, &plan);
        let mut ones = hub.clone();
        ones.marks
            .iter_mut()
            .for_each(|mark| *mark = (*mark).min(1));
        let message = random.between(1, n as usize) as u8;
        let answer = hub.hand(message);
        assert_eq!(answer, ones.hand(message));
        if answer.is_ok() {
            assert_eq!((hub.marks, hub.finished), (ones.marks, ones.finished));
            taken += 1;
        }
    }
    assert!(taken > 500, "{taken}");
}

#[test]
fn the_same_seed_gives_the_same_cases() {
    let cases = |seed| {
        let mut random = Random::new(seed);
        let mut next = || {
            let case = walk_case(&mut random);
            let fresh = fresh_walk_case(&mut random);
            let messages = messages_case(&mut random).messages;
            (case.plan, case.marks, case.message, fresh.marks, messages)
        };
        (0..50).map(|_| next()).collect::<Vec<_>>()
    };
    assert_eq!(cases(1), cases(1));
    assert_ne!(cases(1), cases(2));
}
