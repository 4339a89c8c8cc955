//! Terms as a graph: entries that are words or nodes, and how they are written as words.

use reference::plans::{operands, CHOICE, PRODUCT};

/// Nodes begin at 256, so that every word is an entry too.
const FIRST_NODE: usize = 256;

/// A word below 256, a node from there on.
#[derive(Clone, Copy, Default)]
pub struct Entry(u16);

impl Entry {
    pub const fn word(word: u8) -> Entry {
        Entry(word as u16)
    }

    /// The index of the node that the entry is.
    fn node(self) -> Option<usize> {
        let index = usize::from(self.0);
        (index >= FIRST_NODE).then_some(index)
    }

    pub fn is(self, other: Entry) -> bool {
        self.0 == other.0
    }

    pub fn is_word(self) -> bool {
        self.node().is_none()
    }

    /// The word that the entry is.
    pub fn as_word(self) -> u8 {
        self.0 as u8
    }
}

/// A sign with its operands; the same one twice for a sign of one.
#[derive(Clone, Copy, Default)]
pub struct Root {
    pub sign: u8,
    pub p: Entry,
    pub q: Entry,
}

/// An operand, as the laws ask for it: an action, a sum or a product with what is under it, or
/// another sign.
#[derive(Clone, Copy)]
pub enum Operand {
    Action(Entry),
    Sum(Entry, Entry),
    Product(Entry, Entry),
    Other,
}

/// Entries from the first to the last, in front of an array.
pub struct Stack<const LENGTH: usize> {
    entries: [Entry; LENGTH],
    height: usize,
}

impl<const LENGTH: usize> Stack<LENGTH> {
    pub fn empty() -> Stack<LENGTH> {
        Stack {
            entries: [Entry::default(); LENGTH],
            height: 0,
        }
    }

    pub fn push(&mut self, entry: Entry) {
        self.entries[self.height] = entry;
        self.height += 1;
    }

    fn pop(&mut self) -> Entry {
        self.height -= 1;
        self.entries[self.height]
    }

    /// Drops so many entries.
    pub fn drop(&mut self, count: u8) {
        self.height -= usize::from(count);
    }

    /// Drops all entries.
    pub fn clear(&mut self) {
        self.height = 0;
    }

    /// A sign with its operands, which are the last entries.
    pub fn root(&self, sign: u8) -> Root {
        let q = self.entries[self.height - 1];
        let p = match operands(sign) {
            1 => q,
            _ => self.entries[self.height - 2],
        };
        Root { sign, p, q }
    }
}

/// Signs over their operands: for each node its sign, its operands (the same one twice for a
/// sign of one), and how many words it is written as.
pub struct Nodes<const LENGTH: usize> {
    signs: [u8; LENGTH],
    first: [Entry; LENGTH],
    second: [Entry; LENGTH],
    sizes: [u16; LENGTH],
    /// Where the next node goes.
    count: usize,
}

impl<const LENGTH: usize> Nodes<LENGTH> {
    pub fn none() -> Nodes<LENGTH> {
        Nodes {
            signs: [0; LENGTH],
            first: [Entry::default(); LENGTH],
            second: [Entry::default(); LENGTH],
            sizes: [0; LENGTH],
            count: FIRST_NODE,
        }
    }

    /// Gives all nodes back.
    pub fn clear(&mut self) {
        self.count = FIRST_NODE;
    }

    /// How many words an entry is written as.
    pub fn size(&self, entry: Entry) -> usize {
        entry.node().map_or(1, |node| self.sizes[node].into())
    }

    /// How many words a sign with its operands has.
    pub fn root_size(&self, root: Root) -> usize {
        match operands(root.sign) {
            1 => self.size(root.p) + 1,
            _ => self.size(root.p) + self.size(root.q) + 1,
        }
    }

    /// The last word of an entry.
    fn word(&self, entry: Entry) -> u8 {
        entry
            .node()
            .map_or(entry.as_word(), |node| self.signs[node])
    }

    /// What an operand is.
    pub fn operand(&self, entry: Entry) -> Operand {
        let Some(node) = entry.node() else {
            return Operand::Action(entry);
        };
        match self.signs[node] {
            CHOICE => Operand::Sum(self.first[node], self.second[node]),
            PRODUCT => Operand::Product(self.first[node], self.second[node]),
            _ => Operand::Other,
        }
    }

    /// Makes a node, if there is room for one.
    pub fn make(&mut self, root: Root) -> Option<Entry> {
        let node = self.count;
        if node == LENGTH {
            return None;
        }
        self.signs[node] = root.sign;
        self.first[node] = root.p;
        self.second[node] = root.q;
        self.sizes[node] = self.root_size(root) as u16;
        self.count += 1;
        Some(Entry(node as u16))
    }

    /// Writes the entries of a stack into a space of their size, from the last word to the first.
    /// They are used up.
    pub fn write_back<const HEIGHT: usize>(&self, stack: &mut Stack<HEIGHT>, space: &mut [u8]) {
        for place in space.iter_mut().rev() {
            let entry = stack.pop();
            *place = self.word(entry);
            let Some(node) = entry.node() else {
                continue;
            };
            stack.push(self.first[node]);
            if operands(*place) == 2 {
                stack.push(self.second[node]);
            }
        }
    }
}
