//! Orders and stuck paths: the two counts, against the paths themselves and against document 01's
//! one count.

use reference::plans::{
    counts, is_basic, judged_orders, term, Counts, Term, CHOICE, LONGEST_PLAN, MERGE, PRODUCT,
};
use reference::random::plans::{any_plan, basic_plan, every_plan, repeating_basic_plan};
use reference::random::walks::{nearly_basic_plan, walked_plan};
use reference::random::Random;
use reference::reading::{paths_of, Path};
use reference::stations::{program, station_file};
use reference::tables::trial_tables;
use reference::trees::{Forest, Tree};
use std::collections::BTreeSet;

fn both(orders: usize, stuck: usize) -> Counts {
    Counts { orders, stuck }
}

/// The branches of a basic plan, each with the plan that follows it, none where it finishes; a
/// branch that stands twice in the words is there twice.
fn branches(plan: &Term) -> Vec<(u8, Option<&Term>)> {
    match plan {
        Term::Action(0) => Vec::new(),
        Term::Action(a) => vec![(*a, None)],
        Term::Two(CHOICE, x, y) => [branches(x), branches(y)].concat(),
        Term::Two(PRODUCT, a, x) => {
            let first = branches(a).into_iter();
            first.map(|(a, _)| (a, Some(&**x))).collect()
        }
        _ => unreachable!("a basic plan has no other sign"),
    }
}

/// Goes along every path of a basic plan, from branch to branch: it is stuck where no branch goes
/// on before a finish.
fn paths(plan: &Term) -> Vec<Path> {
    let path = |actions: &[u8], stuck| Path {
        actions: actions.to_vec(),
        stuck,
    };
    let mut found = Vec::new();
    let mut waiting = vec![(Vec::new(), plan)];
    while let Some((seen, plan)) = waiting.pop() {
        let branches = branches(plan);
        if branches.is_empty() {
            found.push(path(&seen, true));
        }
        for (action, further) in branches {
            let seen = [&seen[..], &[action]].concat();
            match further {
                None => found.push(path(&seen, false)),
                Some(plan) => waiting.push((seen, plan)),
            }
        }
    }
    found
}

/// How many of the paths end in either way.
fn by_paths(paths: &[Path]) -> Counts {
    let stuck = paths.iter().filter(|path| path.stuck).count();
    both(paths.len() - stuck, stuck)
}

/// "Orders of a basic plan: δ and an action count 1, a·x counts x's, a sum adds" (document 01).
fn document_01(plan: &Term) -> usize {
    match plan {
        Term::Two(PRODUCT, _, x) => document_01(x),
        Term::Two(_, x, y) => document_01(x) + document_01(y),
        _ => 1,
    }
}

/// The counts of a basic plan by its words alone: every dead stop ends a path, and so does every
/// action that no product takes as its first factor.
fn by_words(plan: &[u8]) -> Counts {
    let count = |wanted: fn(u8) -> bool| plan.iter().filter(|&&word| wanted(word)).count();
    let (actions, products) = (
        count(|word| (1..=31).contains(&word)),
        count(|word| word == PRODUCT),
    );
    both(actions - products, count(|word| word == 0))
}

/// Compares the counts of a basic plan with all of the above.
fn compare(plan: &[u8]) -> Counts {
    let (counted, whole) = (counts(plan), term(plan));
    let mut found = paths(&whole);
    assert_eq!(counted, by_paths(&found), "{plan:?}");
    assert_eq!(counted, by_words(plan), "{plan:?}");
    let one = counted.orders + counted.stuck;
    assert_eq!(one, document_01(&whole), "{plan:?}");
    let mut listed = paths_of(plan);
    let key = |path: &Path| (path.actions.clone(), path.stuck);
    listed.sort_by_key(key);
    found.sort_by_key(key);
    assert_eq!(listed, found, "{plan:?}");
    counted
}

/// How many plans have: orders alone, stuck paths alone, both.
#[derive(Default)]
struct Kinds([usize; 3]);

impl Kinds {
    fn note(&mut self, counted: Counts) {
        match counted {
            Counts { stuck: 0, .. } => self.0[0] += 1,
            Counts { orders: 0, .. } => self.0[1] += 1,
            _ => self.0[2] += 1,
        }
    }
}

#[test]
fn the_request_and_its_reading() {
    assert_eq!(counts(&[0]), both(0, 1));
    assert_eq!(counts(&[1, 2, 65, 2, 1, 65, 64, 3, 64]), both(3, 0));
    assert_eq!(counts(&[1, 2, 66]), both(0, 0));
    // By the words: these trees have one path each.
    assert_eq!(counts(&[1, 1, 64]), both(2, 0));
    assert_eq!(counts(&[1, 0, 65, 1, 0, 65, 64]), both(0, 2));
}

#[test]
fn every_small_basic_plan() {
    let plans = (1..=9).flat_map(|size| every_plan(&[0, 1, 2, 64, 65], size));
    let plans: Vec<Vec<u8>> = plans.filter(|plan| is_basic(plan)).collect();
    // By how many words are actions, dead stop among them: one to five.
    assert_eq!(plans.len(), 3 + 10 + 60 + 460 + 3960);
    let mut kinds = Kinds::default();
    for plan in plans {
        kinds.note(compare(&plan));
    }
    // Plans with orders alone, and with stuck paths alone, by the same sizes.
    let (orders, stuck) = (2 + 8 + 48 + 352 + 2880, 1 + 2 + 4 + 12 + 40);
    assert_eq!(kinds.0, [orders, stuck, 4493 - orders - stuck]);
}

#[test]
fn every_small_plan_that_is_not_basic() {
    let words = [0, 1, 2, 64, 65, 66, 69, 70, 80];
    let mut none = 0;
    for plan in (1..=5).flat_map(|size| every_plan(&words, size)) {
        let counted = judged_orders(&trial_tables(), &plan);
        if is_basic(&plan) {
            assert_ne!(counted, Ok(both(0, 0)), "{plan:?}");
        } else {
            assert_eq!(counted, Ok(both(0, 0)), "{plan:?}");
            none += 1;
        }
    }
    assert!(none > 1500, "{none}");
}

#[test]
fn random_basic_plans() {
    let (mut random, mut kinds) = (Random::new(81), [(); 2].map(|_| Kinds::default()));
    for _ in 0..4000 {
        let (n, most) = (random.between(1, 31) as u8, random.pick(&[1, 5, 14, 40]));
        let size = random.between(1, most);
        let plan = basic_plan(&mut random, n, size);
        let counted = compare(&plan);
        assert_eq!(counted.orders + counted.stuck, size, "{plan:?}");
        kinds[0].note(counted);
        let plan = repeating_basic_plan(&mut random, n, size);
        kinds[1].note(compare(&plan));
    }
    for Kinds(counts) in kinds {
        assert!(counts.iter().all(|&count| count > 400), "{counts:?}");
    }
}

#[test]
fn a_product_counts_what_follows_and_a_sum_adds() {
    let mut random = Random::new(82);
    let mut sums = 0;
    for _ in 0..3000 {
        let [x, y] = [(); 2].map(|_| walked_plan(&mut random, 4));
        let product = [&[1], &x[..], &[PRODUCT]].concat();
        let sum = [&x[..], &y, &[CHOICE]].concat();
        if product.len() > LONGEST_PLAN || sum.len() > LONGEST_PLAN {
            continue;
        }
        assert_eq!(counts(&product), counts(&x));
        let (of_x, of_y) = (counts(&x), counts(&y));
        let added = both(of_x.orders + of_y.orders, of_x.stuck + of_y.stuck);
        // Dead stop is basic, and no summand of a basic plan.
        let stops = x == [0] || y == [0];
        assert_eq!(counts(&sum), if stops { both(0, 0) } else { added });
        sums += usize::from(!stops);
    }
    assert!(sums > 2000, "{sums}");
}

#[test]
fn plans_of_any_size() {
    let mut random = Random::new(83);
    let (mut long, mut none) = (0, 0);
    for _ in 0..3000 {
        let plan = match random.below(3) {
            0 => any_plan(&mut random, 4),
            1 => nearly_basic_plan(&mut random, 4),
            _ => walked_plan(&mut random, 4),
        };
        let basic = is_basic(&plan);
        let counted = if basic { by_words(&plan) } else { both(0, 0) };
        assert_eq!(counts(&plan), counted, "{plan:?}");
        long += usize::from(basic && plan.len() > 1000);
        none += usize::from(!basic);
    }
    assert!(long > 10 && none > 700, "{long} {none}");
}

/// The paths of a tree, each once.
fn paths_of_tree(forest: &Forest, tree: Tree) -> BTreeSet<(Vec<u8>, bool)> {
    let mut found = BTreeSet::new();
    let mut waiting = vec![(Vec::new(), tree)];
    while let Some((seen, tree)) = waiting.pop() {
        if forest.branches(tree).is_empty() {
            found.insert((seen, true));
            continue;
        }
        for &(action, further) in forest.branches(tree) {
            let longer = [&seen[..], &[action]].concat();
            match further {
                None => drop(found.insert((longer, false))),
                Some(further) => waiting.push((longer, further)),
            }
        }
    }
    found
}

#[test]
fn the_tree_has_the_same_paths() {
    let mut random = Random::new(84);
    let mut repeated = 0;
    for _ in 0..2000 {
        let actions = random.between(1, 14);
        let plan = repeating_basic_plan(&mut random, 3, actions);
        let tables = trial_tables();
        let mut forest = Forest::new(&tables);
        let tree = forest.tree_of(&plan);
        let once = paths_of_tree(&forest, tree);
        let listed = paths_of(&plan).into_iter();
        let listed: Vec<(Vec<u8>, bool)> = listed.map(|p| (p.actions, p.stuck)).collect();
        assert_eq!(listed.iter().cloned().collect::<BTreeSet<_>>(), once);
        // The words may have a path more often than the tree has.
        let stuck = once.iter().filter(|(_, stuck)| *stuck).count();
        let Counts { orders, stuck: k } = counts(&plan);
        assert!(orders >= once.len() - stuck && k >= stuck, "{plan:?}");
        repeated += usize::from(orders + k > once.len());
    }
    assert!(repeated > 100, "{repeated}");
}

#[test]
fn first_lines() {
    let first = |plan: &[u8]| {
        let text = program(&station_file(&trial_tables(), plan));
        text.lines().next().unwrap().to_string()
    };
    let cases: [(&[u8], &str); 8] = [
        (&[1, 2, 66], "end 0 steps 4 size 9 orders 3 stuck 0"),
        (&[0], "end 0 steps 0 size 1 orders 0 stuck 1"),
        (&[1, 0, 65], "end 0 steps 0 size 3 orders 0 stuck 1"),
        (&[0, 1, 65], "end 0 steps 1 size 1 orders 0 stuck 1"),
        (&[0, 0, 64], "end 0 steps 1 size 1 orders 0 stuck 1"),
        (&[1, 1, 64], "end 0 steps 0 size 3 orders 2 stuck 0"),
        (
            &[1, 0, 65, 1, 0, 65, 64],
            "end 0 steps 0 size 7 orders 0 stuck 2",
        ),
        (
            &[1, 0, 65, 2, 64, 3, 67],
            "end 0 steps 10 size 9 orders 1 stuck 1",
        ),
    ];
    for (plan, line) in cases {
        assert_eq!(first(plan), line, "{plan:?}");
    }
}

#[test]
fn the_first_line_counts_the_plan_below_it() {
    let mut random = Random::new(85);
    let (mut kinds, mut stopped) = (Kinds::default(), [0, 0]);
    for _ in 0..500 {
        let plan = match random.below(12) {
            0..=3 => walked_plan(&mut random, 4),
            4 => merged(&mut random),
            _ => any_plan(&mut random, 4),
        };
        let text = program(&station_file(&trial_tables(), &plan));
        let line = |index| text.lines().nth(index).unwrap_or_default();
        let head: Vec<&str> = line(0).split(' ').collect();
        let ["end", end, "steps", _, "size", size, "orders", orders, "stuck", stuck] = head[..]
        else {
            assert_eq!(line(0), "refused 55 0");
            continue;
        };
        let words: Vec<u8> = line(1)
            .split(' ')
            .map(|word| word.parse().unwrap())
            .collect();
        assert_eq!(size, words.len().to_string());
        let counted = both(orders.parse().unwrap(), stuck.parse().unwrap());
        if end == "0" {
            assert_eq!(counted, by_words(&words), "{plan:?}");
            kinds.note(counted);
        } else {
            // Under 34 and 36 the plan reached is not basic.
            assert_eq!(counted, both(0, 0), "{plan:?}");
            stopped[usize::from(end == "36")] += 1;
        }
    }
    assert!(kinds.0.iter().all(|&count| count > 30), "{:?}", kinds.0);
    assert!(stopped.iter().all(|&count| count > 5), "{stopped:?}");
}

/// A merge of a few basic plans, which often does not finish within the program's limits.
fn merged(random: &mut Random) -> Vec<u8> {
    let mut plan = basic_plan(random, 4, 2);
    for _ in 0..random.between(1, 4) {
        let paths = random.pick(&[2, 2, 2, 600]);
        plan.extend(basic_plan(random, 4, paths));
        plan.push(MERGE);
    }
    plan
}
