//! Seeded random tables, plans, rewritings, files, texts, walks, pairs of actions and whole cases,
//! for comparing implementations. They stay close to the edges of what is accepted.

pub mod backwards;
pub mod cases;
pub mod ending;
pub mod forms;
pub mod plans;
pub mod precedence;
pub mod rewritings;
pub mod stations;
pub mod tables;
pub mod texts;
pub mod walks;

/// A seeded source of numbers (splitmix64): the same seed gives the same cases.
#[derive(Clone, Debug)]
pub struct Random {
    state: u64,
}

impl Random {
    /// A source with this seed.
    pub fn new(seed: u64) -> Random {
        Random { state: seed }
    }

    /// The next number, of 64 bits.
    pub fn number(&mut self) -> u64 {
        self.state = self.state.wrapping_add(0x9E37_79B9_7F4A_7C15);
        let mut mixed = self.state;
        mixed = (mixed ^ (mixed >> 30)).wrapping_mul(0xBF58_476D_1CE4_E5B9);
        mixed = (mixed ^ (mixed >> 27)).wrapping_mul(0x94D0_49BB_1331_11EB);
        mixed ^ (mixed >> 31)
    }

    /// A number below the bound, which is not 0.
    pub fn below(&mut self, bound: usize) -> usize {
        (self.number() % bound as u64) as usize
    }

    /// A number from the first to the last.
    pub fn between(&mut self, first: usize, last: usize) -> usize {
        first + self.below(last - first + 1)
    }

    /// True once in so many times.
    pub fn once_in(&mut self, times: usize) -> bool {
        self.below(times) == 0
    }

    /// One of the choices.
    pub fn pick<T: Clone>(&mut self, choices: &[T]) -> T {
        choices[self.below(choices.len())].clone()
    }

    /// Any byte.
    pub fn byte(&mut self) -> u8 {
        self.below(256) as u8
    }

    /// Bytes that were lent: all the same, or all sorts.
    pub fn lent(&mut self, length: usize) -> Vec<u8> {
        match self.below(3) {
            0 => vec![0; length],
            1 => vec![255; length],
            _ => (0..length).map(|_| self.byte()).collect(),
        }
    }

    /// The numbers from the first to the last, in any order.
    pub fn shuffled(&mut self, first: u8, last: u8) -> Vec<u8> {
        let mut numbers: Vec<u8> = (first..=last).collect();
        for index in (1..numbers.len()).rev() {
            let other = self.below(index + 1);
            numbers.swap(index, other);
        }
        numbers
    }

    /// A number at or close to another, or one of the edges given.
    pub fn near(&mut self, number: usize, edges: &[usize]) -> usize {
        match self.below(6) {
            0 => number.saturating_sub(1),
            1 => number + 1,
            2 => self.pick(edges),
            3 => number + self.below(20),
            _ => number,
        }
    }
}
