//! The unfolding's steps on a graph of terms, one entry after another.
//!
//! The terms read stand on a stack as entries, free of redexes; the entries still to read wait
//! at the end of an array. A right side is put in as entries, its letters not written out, so a
//! step costs the symbols of its law, however long the terms are.

use super::areas::Cut;
use super::graph::{Entry, Nodes, Root, Stack};
use super::graph_laws::Redex;
use super::records::Records;
use reference::plans::{operands, LONGEST_PLAN};

/// What the reading of one entry comes to.
pub enum Reading {
    /// It is read.
    On,
    /// A step by a law at a place.
    Step { law: u8, place: usize },
    /// A step that cannot be made: 34, 35 or 36.
    Stopped(u8),
    /// No node is left for a sign.
    NoNode,
}

/// A plan under work, as entries.
pub struct Work<const LENGTH: usize> {
    nodes: Nodes<LENGTH>,
    /// The terms read.
    stack: Stack<LONGEST_PLAN>,
    /// The entries still to read, at the end.
    todo: [Entry; LONGEST_PLAN],
    rest: usize,
    /// The words of the terms read.
    read: usize,
    /// The words of the plan.
    size: usize,
    /// The last step since the loading, and the subplan that it took away.
    last: Option<(Cut, Root)>,
}

impl<const LENGTH: usize> Work<LENGTH> {
    /// No plan yet. (Made in its place, and not moved: it is large.)
    pub fn empty() -> Work<LENGTH> {
        Work {
            nodes: Nodes::none(),
            stack: Stack::empty(),
            todo: [Entry::default(); LONGEST_PLAN],
            rest: LONGEST_PLAN,
            read: 0,
            size: 0,
            last: None,
        }
    }

    /// Takes an accepted plan with no entry read, and all nodes back.
    pub fn load(&mut self, plan: &[u8]) {
        self.nodes.clear();
        self.stack.clear();
        self.rest = LONGEST_PLAN - plan.len();
        for (entry, &word) in self.todo[self.rest..].iter_mut().zip(plan) {
            *entry = Entry::word(word);
        }
        self.read = 0;
        self.size = plan.len();
        self.last = None;
    }

    /// How many words the plan has.
    pub fn size(&self) -> usize {
        self.size
    }

    /// Whether nothing is left to read: no law fits then.
    pub fn all_read(&self) -> bool {
        self.rest == LONGEST_PLAN
    }

    /// Reads the next entry, or makes the step that fits there: everything read is free of
    /// redexes, so its place is the least.
    pub fn advance(&mut self, tables: &[u8], records: &Records, room: usize) -> Reading {
        let entry = self.todo[self.rest];
        let sign = entry.as_word();
        if !entry.is_word() || operands(sign) == 0 {
            return self.read_term(entry);
        }
        let root = self.stack.root(sign);
        match Redex::at(tables, &self.nodes, root) {
            None => self.read_sign(root),
            Some(redex) => self.step(tables, records, room, root, redex),
        }
    }

    /// Reads an entry that stands for a term.
    fn read_term(&mut self, entry: Entry) -> Reading {
        self.stack.push(entry);
        self.read += self.nodes.size(entry);
        self.rest += 1;
        Reading::On
    }

    /// Reads a sign at which no law fits: it becomes a node, if there is room for one.
    fn read_sign(&mut self, root: Root) -> Reading {
        let Some(node) = self.nodes.make(root) else {
            return Reading::NoNode;
        };
        self.stack.drop(operands(root.sign));
        self.stack.push(node);
        self.read += 1;
        self.rest += 1;
        Reading::On
    }

    /// Makes a step, unless it cannot be recorded or the plan would have more words than there
    /// is room for.
    fn step(
        &mut self,
        tables: &[u8],
        records: &Records,
        room: usize,
        root: Root,
        redex: Redex,
    ) -> Reading {
        if let Some(number) = records.full() {
            return Reading::Stopped(number);
        }
        let taken = self.nodes.root_size(root);
        let put = redex.size(&self.nodes);
        let size = self.size - taken + put;
        if size > room {
            return Reading::Stopped(36);
        }
        let place = self.read;
        let at = place + 1 - taken;
        self.rest = redex.put(tables, &mut self.todo, self.rest + 1);
        self.stack.drop(operands(root.sign));
        self.read = at;
        self.size = size;
        self.last = Some((Cut { at, taken, put }, root));
        Reading::Step {
            law: redex.law,
            place,
        }
    }

    /// Writes the plan into a space of its size. The stack is used up.
    pub fn write_plan(&mut self, space: &mut [u8]) {
        for &entry in &self.todo[self.rest..] {
            self.stack.push(entry);
        }
        self.nodes.write_back(&mut self.stack, space);
    }

    /// Writes the words that the last step since the loading took away, if there was one, to the
    /// front of a space, and answers that step. The stack must be used up.
    pub fn write_redex(&mut self, space: &mut [u8]) -> Option<Cut> {
        let (cut, Root { sign, p, q }) = self.last?;
        self.stack.push(p);
        if operands(sign) == 2 {
            self.stack.push(q);
        }
        self.stack.push(Entry::word(sign));
        self.nodes
            .write_back(&mut self.stack, &mut space[..cut.taken]);
        Some(cut)
    }
}
