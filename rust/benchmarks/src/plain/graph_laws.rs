//! The laws by operands: what the operands of a sign in a graph are tells the lowest of laws 5 to
//! 32 that fits, so that no law is tried in vain.

use super::graph::Operand::{self, Action, Product, Sum};
use super::graph::{Entry, Nodes, Root};
use reference::plans::{
    CHOICE, COMMUNICATION_MERGE, ENCAPSULATION, LEFT_MERGE, MERGE, PRODUCT, THETA, UNLESS,
};
use reference::tables::{below, blocked, communication, DEAD_STOP};

const STOP: Entry = Entry::word(DEAD_STOP);
const ALT: Entry = Entry::word(CHOICE);
const SEQ: Entry = Entry::word(PRODUCT);
const MRG: Entry = Entry::word(MERGE);
const LMG: Entry = Entry::word(LEFT_MERGE);
const COM: Entry = Entry::word(COMMUNICATION_MERGE);
const UNL: Entry = Entry::word(UNLESS);
const PRI: Entry = Entry::word(THETA);

/// A law that fits, and what its letters stand for.
#[derive(Clone, Copy)]
pub struct Redex {
    pub law: u8,
    x: Entry,
    y: Entry,
    z: Entry,
    a: Entry,
    b: Entry,
    set: Entry,
}

impl Redex {
    fn on_plans(law: u8, x: Entry, y: Entry, z: Entry) -> Option<Redex> {
        Some(Redex {
            law,
            x,
            y,
            z,
            a: STOP,
            b: STOP,
            set: STOP,
        })
    }

    fn on_actions(law: u8, a: Entry, b: Entry, x: Entry, y: Entry) -> Option<Redex> {
        Some(Redex {
            law,
            x,
            y,
            z: STOP,
            a,
            b,
            set: STOP,
        })
    }

    fn on_set(law: u8, set: u8, a: Entry, x: Entry, y: Entry) -> Option<Redex> {
        Some(Redex {
            law,
            x,
            y,
            z: STOP,
            a,
            b: STOP,
            set: Entry::word(set),
        })
    }

    /// The law that fits at a sign.
    pub fn at<const LENGTH: usize>(
        tables: &[u8],
        nodes: &Nodes<LENGTH>,
        root: Root,
    ) -> Option<Redex> {
        let Root { sign, p, q } = root;
        match sign {
            CHOICE if q.is(STOP) => Redex::on_plans(7, p, STOP, STOP),
            CHOICE if p.is(STOP) => Redex::on_plans(8, q, STOP, STOP),
            CHOICE => None,
            PRODUCT => match nodes.operand(p) {
                Sum(x, y) => Redex::on_plans(5, x, y, q),
                Product(x, y) => Redex::on_plans(6, x, y, q),
                Action(a) if a.is(STOP) => Redex::on_plans(9, q, STOP, STOP),
                _ => None,
            },
            MERGE => Redex::on_plans(11, p, q, STOP),
            LEFT_MERGE => match nodes.operand(p) {
                Action(a) => Redex::on_actions(12, a, STOP, q, STOP),
                Sum(x, y) => Redex::on_plans(14, x, y, q),
                Product(a, x) if a.is_word() => Redex::on_actions(13, a, STOP, x, q),
                _ => None,
            },
            COMMUNICATION_MERGE => match (nodes.operand(p), nodes.operand(q)) {
                (Action(a), Action(b)) => Redex::on_actions(10, a, b, STOP, STOP),
                (Action(a), Product(b, x)) if b.is_word() => Redex::on_actions(16, a, b, x, STOP),
                (Product(a, x), Action(b)) if a.is_word() => Redex::on_actions(15, a, b, x, STOP),
                (Product(a, x), Product(b, y)) if a.is_word() && b.is_word() => {
                    Redex::on_actions(17, a, b, x, y)
                }
                (Sum(x, y), _) => Redex::on_plans(18, x, y, q),
                (_, Sum(y, z)) => Redex::on_plans(19, p, y, z),
                _ => None,
            },
            UNLESS => match (nodes.operand(p), nodes.operand(q)) {
                (_, Product(y, z)) => Redex::on_plans(26, p, y, z),
                (_, Sum(y, z)) => Redex::on_plans(27, p, y, z),
                (Product(x, y), _) => Redex::on_plans(28, x, y, q),
                (Sum(x, y), _) => Redex::on_plans(29, x, y, q),
                (Action(a), Action(b)) => {
                    let law = 24 + u8::from(below(tables, a.as_word(), b.as_word()));
                    Redex::on_actions(law, a, b, STOP, STOP)
                }
                _ => None,
            },
            THETA => match nodes.operand(p) {
                Action(a) => Redex::on_actions(30, a, STOP, STOP, STOP),
                Product(x, y) => Redex::on_plans(31, x, y, STOP),
                Sum(x, y) => Redex::on_plans(32, x, y, STOP),
                Operand::Other => None,
            },
            80..=87 => match nodes.operand(p) {
                Action(a) => {
                    let law = 20 + u8::from(blocked(tables, sign - ENCAPSULATION, a.as_word()));
                    Redex::on_set(law, sign, a, STOP, STOP)
                }
                Sum(x, y) => Redex::on_set(22, sign, STOP, x, y),
                Product(x, y) => Redex::on_set(23, sign, STOP, x, y),
                Operand::Other => None,
            },
            _ => None,
        }
    }

    /// How many words the right side comes to.
    pub fn size<const LENGTH: usize>(&self, nodes: &Nodes<LENGTH>) -> usize {
        let [x, y, z, own] = weights(self.law);
        x * nodes.size(self.x) + y * nodes.size(self.y) + z * nodes.size(self.z) + own
    }

    /// Puts the right side before the entries still to read; where it begins.
    pub fn put(&self, tables: &[u8], todo: &mut [Entry], rest: usize) -> usize {
        let &Redex {
            law,
            x,
            y,
            z,
            a,
            b,
            set,
        } = self;
        match law {
            5 => put(todo, rest, [x, z, SEQ, y, z, SEQ, ALT]),
            6 => put(todo, rest, [x, y, z, SEQ, SEQ]),
            7 | 8 => put(todo, rest, [x]),
            10 => {
                let together = communication(tables, a.as_word(), b.as_word());
                put(todo, rest, [Entry::word(together)])
            }
            11 => put(todo, rest, [x, y, LMG, y, x, LMG, ALT, x, y, COM, ALT]),
            12 => put(todo, rest, [a, x, SEQ]),
            13 => put(todo, rest, [a, x, y, MRG, SEQ]),
            14 => put(todo, rest, [x, z, LMG, y, z, LMG, ALT]),
            15 | 16 => put(todo, rest, [a, b, COM, x, SEQ]),
            17 => put(todo, rest, [a, b, COM, x, y, MRG, SEQ]),
            18 => put(todo, rest, [x, z, COM, y, z, COM, ALT]),
            19 => put(todo, rest, [x, y, COM, x, z, COM, ALT]),
            20 | 24 | 30 => put(todo, rest, [a]),
            22 => put(todo, rest, [x, set, y, set, ALT]),
            23 => put(todo, rest, [x, set, y, set, SEQ]),
            26 => put(todo, rest, [x, y, UNL]),
            27 => put(todo, rest, [x, y, UNL, z, UNL]),
            28 => put(todo, rest, [x, z, UNL, y, SEQ]),
            29 => put(todo, rest, [x, z, UNL, y, z, UNL, ALT]),
            31 => put(todo, rest, [x, PRI, y, PRI, SEQ]),
            32 => put(todo, rest, [x, PRI, y, UNL, y, PRI, x, UNL, ALT]),
            _ => put(todo, rest, [STOP]),
        }
    }
}

/// Puts entries before those still to read; where they begin.
fn put<const COUNT: usize>(todo: &mut [Entry], rest: usize, entries: [Entry; COUNT]) -> usize {
    let front = rest - COUNT;
    todo[front..rest].copy_from_slice(&entries);
    front
}

/// How often x, y and z stand in the right side of a law, and how many other words.
fn weights(law: u8) -> [usize; 4] {
    match law {
        5 => [1, 1, 2, 3],
        6 => [1, 1, 1, 2],
        7 => [1, 0, 0, 0],
        8 => [1, 0, 0, 0],
        11 => [3, 3, 0, 5],
        12 => [1, 0, 0, 2],
        13 => [1, 1, 0, 3],
        14 => [1, 1, 2, 3],
        15 => [1, 0, 0, 4],
        16 => [1, 0, 0, 4],
        17 => [1, 1, 0, 5],
        18 => [1, 1, 2, 3],
        19 => [2, 1, 1, 3],
        22 => [1, 1, 0, 3],
        23 => [1, 1, 0, 3],
        26 => [1, 1, 0, 1],
        27 => [1, 1, 1, 2],
        28 => [1, 1, 1, 2],
        29 => [1, 1, 2, 3],
        31 => [1, 1, 0, 3],
        32 => [2, 2, 0, 5],
        _ => [0, 0, 0, 1],
    }
}
