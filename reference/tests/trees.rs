//! The canonical trees against trees written down as they are read: branches in a list,
//! with repeats, and alike decided by matching them one by one.

use reference::plans::{term, Term, ENCAPSULATION};
use reference::random::plans::{plan_with_left_side, small_plan};
use reference::random::rewritings::derivation;
use reference::random::tables::lawful_tables_over;
use reference::random::Random;
use reference::tables::{below, blocked, communication};
use reference::trees::alike;
use std::rc::Rc;

/// A branch: an action, and a finish or a further tree.
#[derive(Clone)]
struct Branch(u8, Option<Rc<Tree>>);

type Tree = Vec<Branch>;

fn tree(tables: &[u8], plan: &Term) -> Tree {
    match plan {
        Term::Action(0) => vec![],
        Term::Action(a) => vec![Branch(*a, None)],
        Term::One(70, x) => theta(tables, &tree(tables, x)),
        Term::One(word, x) => encapsulate(tables, word - ENCAPSULATION, &tree(tables, x)),
        Term::Two(word, x, y) => {
            let (x, y) = (tree(tables, x), tree(tables, y));
            match word {
                64 => [x, y].concat(),
                65 => product(&x, &y),
                66 => merge(tables, &x, &y),
                67 => left_merge(tables, &x, &y),
                68 => together(tables, &x, &y),
                _ => unless(tables, &x, &y),
            }
        }
    }
}

fn product(x: &Tree, y: &Tree) -> Tree {
    let follow = |further: &Option<Rc<Tree>>| match further {
        None => y.clone(),
        Some(further) => product(further, y),
    };
    x.iter()
        .map(|Branch(a, further)| Branch(*a, Some(Rc::new(follow(further)))))
        .collect()
}

fn left_merge(tables: &[u8], x: &Tree, y: &Tree) -> Tree {
    let follow = |further: &Option<Rc<Tree>>| match further {
        None => y.clone(),
        Some(further) => merge(tables, further, y),
    };
    x.iter()
        .map(|Branch(a, further)| Branch(*a, Some(Rc::new(follow(further)))))
        .collect()
}

fn together(tables: &[u8], x: &Tree, y: &Tree) -> Tree {
    let mut branches = vec![];
    for Branch(a, after_a) in x {
        for Branch(b, after_b) in y {
            let c = communication(tables, *a, *b);
            let after = match (after_a, after_b) {
                (None, after) | (after, None) => after.clone(),
                (Some(of_x), Some(of_y)) => Some(Rc::new(merge(tables, of_x, of_y))),
            };
            if c != 0 {
                branches.push(Branch(c, after));
            }
        }
    }
    branches
}

fn merge(tables: &[u8], x: &Tree, y: &Tree) -> Tree {
    let first = [left_merge(tables, x, y), left_merge(tables, y, x)].concat();
    [first, together(tables, x, y)].concat()
}

fn encapsulate(tables: &[u8], set: u8, x: &Tree) -> Tree {
    let kept = x.iter().filter(|Branch(a, _)| !blocked(tables, set, *a));
    let deeper = |further: &Rc<Tree>| Rc::new(encapsulate(tables, set, further));
    kept.map(|Branch(a, further)| Branch(*a, further.as_ref().map(deeper)))
        .collect()
}

fn unless(tables: &[u8], x: &Tree, y: &Tree) -> Tree {
    let stays = |a: u8| y.iter().all(|Branch(b, _)| !below(tables, a, *b));
    x.iter().filter(|Branch(a, _)| stays(*a)).cloned().collect()
}

fn theta(tables: &[u8], x: &Tree) -> Tree {
    let deeper = |further: &Rc<Tree>| Rc::new(theta(tables, further));
    let stays = |a: u8| x.iter().all(|Branch(b, _)| !below(tables, a, *b));
    let kept = x.iter().filter(|Branch(a, _)| stays(*a));
    kept.map(|Branch(a, further)| Branch(*a, further.as_ref().map(deeper)))
        .collect()
}

/// "Two trees are ALIKE when each branch of either is matched in the other by one with
/// the same action, both finishing or both leading to alike trees."
fn matched(x: &Tree, y: &Tree) -> bool {
    let within = |x: &Tree, y: &Tree| x.iter().all(|one| y.iter().any(|other| same(one, other)));
    within(x, y) && within(y, x)
}

fn same(one: &Branch, other: &Branch) -> bool {
    one.0 == other.0
        && match (&one.1, &other.1) {
            (None, None) => true,
            (Some(x), Some(y)) => matched(x, y),
            _ => false,
        }
}

/// Compares both decisions, and answers them.
fn decided(tables: &[u8], plan: &[u8], other: &[u8]) -> bool {
    let (x, y) = (tree(tables, &term(plan)), tree(tables, &term(other)));
    let decision = alike(tables, plan, other);
    assert_eq!(decision, matched(&x, &y), "{plan:?} {other:?}");
    decision
}

#[test]
fn any_two_plans() {
    let mut random = Random::new(31);
    let mut found = [0, 0];
    for _ in 0..4000 {
        let n = random.between(1, 3) as u8;
        let tables = lawful_tables_over(&mut random, n);
        let (plan, other) = (small_plan(&mut random, n, 7), small_plan(&mut random, n, 7));
        found[decided(&tables, &plan, &other) as usize] += 1;
    }
    assert!(found[0] > 500 && found[1] > 500, "{found:?}");
}

#[test]
fn a_plan_and_one_derived_from_it() {
    let mut random = Random::new(32);
    for _ in 0..1000 {
        let n = random.between(1, 4) as u8;
        let tables = lawful_tables_over(&mut random, n);
        let plan = plan_with_left_side(&mut random, n);
        if plan.len() > 12 {
            continue;
        }
        let made = derivation(&mut random, &tables, &plan, 5, 60);
        assert!(decided(&tables, &plan, &made.end));
        let mut damaged = made.end.clone();
        let first = damaged.iter_mut().find(|word| **word <= n).unwrap();
        *first = random.between(0, n as usize) as u8;
        decided(&tables, &plan, &damaged);
    }
}
