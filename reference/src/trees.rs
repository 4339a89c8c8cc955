//! Trees: what a plan can do, and when two plans do alike.
//!
//! A tree is kept in canonical form: its branches sorted, without repeats, and
//! stored once. Two trees of one [`Forest`] are therefore alike exactly when they
//! are the same.

use crate::plans::{
    operands, CHOICE, COMMUNICATION_MERGE, ENCAPSULATION, LEFT_MERGE, MERGE, PRODUCT, THETA,
};
use crate::tables::{below, blocked, communication, DEAD_STOP};
use std::collections::HashMap;
use std::thread;

/// A tree, by its number in a forest.
#[derive(Clone, Copy, Debug, PartialEq, Eq, PartialOrd, Ord, Hash)]
pub struct Tree(usize);

/// A branch has an action and leads to a finish (`None`) or to a further tree.
pub type Branch = (u8, Option<Tree>);

/// The trees built so far with some accepted tables, each stored once.
pub struct Forest<'t> {
    tables: &'t [u8],
    trees: Vec<Vec<Branch>>,
    known: HashMap<Vec<Branch>, Tree>,
    products: HashMap<(Tree, Tree), Tree>,
    merges: HashMap<(Tree, Tree), Tree>,
    encapsulations: HashMap<(u8, Tree), Tree>,
    thetas: HashMap<Tree, Tree>,
}

impl<'t> Forest<'t> {
    /// A forest without trees.
    pub fn new(tables: &'t [u8]) -> Forest<'t> {
        Forest {
            tables,
            trees: Vec::new(),
            known: HashMap::new(),
            products: HashMap::new(),
            merges: HashMap::new(),
            encapsulations: HashMap::new(),
            thetas: HashMap::new(),
        }
    }

    /// The branches of a tree.
    pub fn branches(&self, x: Tree) -> &[Branch] {
        &self.trees[x.0]
    }

    /// The tree with these branches.
    pub fn with_branches(&mut self, mut branches: Vec<Branch>) -> Tree {
        branches.sort_unstable();
        branches.dedup();
        if let Some(&tree) = self.known.get(&branches) {
            return tree;
        }
        let tree = Tree(self.trees.len());
        self.trees.push(branches.clone());
        self.known.insert(branches, tree);
        tree
    }

    /// "δ has no branches; another action has one, finishing."
    pub fn action(&mut self, a: u8) -> Tree {
        if a == DEAD_STOP {
            self.with_branches(Vec::new())
        } else {
            self.with_branches(vec![(a, None)])
        }
    }

    /// "x+y has those of both."
    pub fn choice(&mut self, x: Tree, y: Tree) -> Tree {
        let both = [self.branches(x), self.branches(y)].concat();
        self.with_branches(both)
    }

    /// "x·y: each branch of x, a finish becoming y, a further x' becoming x'·y."
    pub fn product(&mut self, x: Tree, y: Tree) -> Tree {
        if let Some(&tree) = self.products.get(&(x, y)) {
            return tree;
        }
        let tree = self.each_branch(x, |forest, further| match further {
            None => Some(y),
            Some(further) => Some(forest.product(further, y)),
        });
        self.products.insert((x, y), tree);
        tree
    }

    /// "x⌊y: the same with x'‖y."
    pub fn left_merge(&mut self, x: Tree, y: Tree) -> Tree {
        self.each_branch(x, |forest, further| match further {
            None => Some(y),
            Some(further) => Some(forest.merge(further, y)),
        })
    }

    /// "x|y: for each pair of branches a of x, b of y with c = a|b not δ, a branch c; if
    /// both finish it finishes; if one does, the other's remainder follows; else the
    /// merge of both remainders."
    pub fn communication_merge(&mut self, x: Tree, y: Tree) -> Tree {
        let (of_x, of_y) = (self.branches(x).to_vec(), self.branches(y).to_vec());
        let mut branches = Vec::new();
        for &(a, after_a) in &of_x {
            for &(b, after_b) in &of_y {
                let c = communication(self.tables, a, b);
                if c != DEAD_STOP {
                    branches.push((c, self.after_both(after_a, after_b)));
                }
            }
        }
        self.with_branches(branches)
    }

    /// What follows a branch made of two.
    fn after_both(&mut self, after_a: Option<Tree>, after_b: Option<Tree>) -> Option<Tree> {
        match (after_a, after_b) {
            (None, None) => None,
            (Some(remainder), None) | (None, Some(remainder)) => Some(remainder),
            (Some(of_x), Some(of_y)) => Some(self.merge(of_x, of_y)),
        }
    }

    /// "x‖y has the branches of x⌊y, y⌊x and x|y."
    pub fn merge(&mut self, x: Tree, y: Tree) -> Tree {
        if let Some(&tree) = self.merges.get(&(x, y)) {
            return tree;
        }
        let x_first = self.left_merge(x, y);
        let y_first = self.left_merge(y, x);
        let together = self.communication_merge(x, y);
        let either = self.choice(x_first, y_first);
        let tree = self.choice(either, together);
        self.merges.insert((x, y), tree);
        tree
    }

    /// "∂ drops branches whose action is in the set, at every depth."
    pub fn encapsulation(&mut self, set: u8, x: Tree) -> Tree {
        if let Some(&tree) = self.encapsulations.get(&(set, x)) {
            return tree;
        }
        let tables = self.tables;
        let kept = self.keep(x, |a| !blocked(tables, set, a));
        let tree = self.each_branch(kept, |forest, further| {
            further.map(|further| forest.encapsulation(set, further))
        });
        self.encapsulations.insert((set, x), tree);
        tree
    }

    /// "x◁y drops the branches of x whose action is below some first action of y, and
    /// changes nothing deeper."
    pub fn unless(&mut self, x: Tree, y: Tree) -> Tree {
        let tables = self.tables;
        let first: Vec<u8> = self.branches(y).iter().map(|&(b, _)| b).collect();
        self.keep(x, |a| !first.iter().any(|&b| below(tables, a, b)))
    }

    /// "θ(x) drops branches whose action is below another first action of x, and applies
    /// θ to each remainder."
    pub fn theta(&mut self, x: Tree) -> Tree {
        if let Some(&tree) = self.thetas.get(&x) {
            return tree;
        }
        let highest = self.unless(x, x);
        let tree = self.each_branch(highest, |forest, further| {
            further.map(|further| forest.theta(further))
        });
        self.thetas.insert(x, tree);
        tree
    }

    /// The tree with the same first actions, and what follows each of them changed.
    fn each_branch(
        &mut self,
        x: Tree,
        mut follow: impl FnMut(&mut Self, Option<Tree>) -> Option<Tree>,
    ) -> Tree {
        let old = self.branches(x).to_vec();
        let new = old
            .into_iter()
            .map(|(a, further)| (a, follow(self, further)))
            .collect();
        self.with_branches(new)
    }

    /// The tree with only those branches whose action is kept.
    fn keep(&mut self, x: Tree, kept: impl Fn(u8) -> bool) -> Tree {
        let left = self.branches(x).iter().filter(|&&(a, _)| kept(a));
        let left = left.copied().collect();
        self.with_branches(left)
    }

    /// The tree of an accepted plan: it comes "from a plan's words and the tables".
    pub fn tree_of(&mut self, plan: &[u8]) -> Tree {
        let mut waiting: Vec<Tree> = Vec::new();
        for &word in plan {
            let y = match operands(word) {
                0 => self.action(word),
                _ => waiting.pop().expect("an accepted plan has the operands"),
            };
            let tree = match operands(word) {
                0 => y,
                1 => self.of_one(word, y),
                _ => {
                    let x = waiting.pop().expect("an accepted plan has the operands");
                    self.of_two(word, x, y)
                }
            };
            waiting.push(tree);
        }
        waiting.pop().expect("an accepted plan is not empty")
    }

    fn of_one(&mut self, word: u8, x: Tree) -> Tree {
        match word {
            THETA => self.theta(x),
            _ => self.encapsulation(word - ENCAPSULATION, x),
        }
    }

    fn of_two(&mut self, word: u8, x: Tree, y: Tree) -> Tree {
        match word {
            CHOICE => self.choice(x, y),
            PRODUCT => self.product(x, y),
            MERGE => self.merge(x, y),
            LEFT_MERGE => self.left_merge(x, y),
            COMMUNICATION_MERGE => self.communication_merge(x, y),
            _ => self.unless(x, y),
        }
    }
}

/// Trees may be thousands of branches deep, and the operators go down them by
/// recursion; they run on a thread whose stack is large enough.
const STACK: usize = 512 * 1024 * 1024;

/// Whether the trees of two accepted plans are alike: "each branch of either is matched
/// in the other by one with the same action, both finishing or both leading to alike
/// trees".
pub fn alike(tables: &[u8], plan: &[u8], other: &[u8]) -> bool {
    thread::scope(|scope| {
        let decide = || {
            let mut forest = Forest::new(tables);
            forest.tree_of(plan) == forest.tree_of(other)
        };
        thread::Builder::new()
            .stack_size(STACK)
            .spawn_scoped(scope, decide)
            .expect("a thread can be started")
            .join()
            .expect("trees are finite")
    })
}

#[cfg(test)]
mod tests {
    use super::*;
    use crate::tables::trial_tables;

    fn trial_alike(x: &[u8], y: &[u8]) -> bool {
        alike(&trial_tables(), x, y)
    }

    #[test]
    fn wrong_ways_are_shut_out() {
        assert!(!trial_alike(&[1, 0, 65], &[1]));
        assert!(!trial_alike(&[1, 0, 65], &[0]));
        assert!(!trial_alike(&[1, 2, 66], &[1, 2, 65, 2, 1, 65, 64]));
        assert!(trial_alike(&[1, 2, 66], &[1, 2, 65, 2, 1, 65, 64, 3, 64]));
        assert!(trial_alike(&[1, 4, 0, 65, 69], &[0]));
        assert!(trial_alike(&[1, 2, 4, 65, 69], &[1]));
        assert!(trial_alike(&[2, 1, 4, 64, 65, 70], &[2, 4, 65]));
    }

    #[test]
    fn deep_trees() {
        let mut chain = vec![1; 8192];
        chain.resize(16_383, 65);
        let mut blocked = chain.clone();
        blocked.push(87);
        assert!(trial_alike(&chain, &blocked));
        let mut left = vec![1, 1, 65];
        for _ in 0..700 {
            left.extend([1, 65]);
        }
        let mut right = vec![1; 702];
        right.resize(1403, 65);
        assert!(trial_alike(&left, &right));
        assert!(!trial_alike(&left, &chain));
    }
}
