//! Refusals: a number and a place.

use std::error::Error;
use std::fmt;

/// Why something handed in was turned back: a number, as `docs/NUMBERS.md` lists them, and where.
///
/// ```
/// let refusal = aberulwy::judge_tables(&[]).unwrap_err();
/// assert_eq!(refusal.number(), 1);
/// assert_eq!(refusal.place(), aberulwy::Place::Nowhere);
/// assert_eq!(refusal.to_string(), "refused 1 0: the tables are not 2,305 bytes");
/// ```
#[derive(Clone, Copy, Debug, PartialEq, Eq, Hash)]
pub struct Refusal {
    number: u8,
    printed: usize,
}

/// Where a refusal was met.
#[derive(Clone, Copy, Debug, PartialEq, Eq, Hash)]
pub enum Place {
    /// The refusal names no place.
    Nowhere,
    /// The index of a byte of the tables, of the plan or of the text; of a text that ends too
    /// early, its length.
    Byte(usize),
    /// Three actions, in the order in which the law has them.
    Triple(u8, u8, u8),
    /// The index of a step of the rewriting, from 0.
    Step(usize),
}

impl Refusal {
    pub(crate) fn new(number: u8, printed: usize) -> Refusal {
        Refusal { number, printed }
    }

    /// The refusal's number, as `docs/NUMBERS.md` lists them.
    ///
    /// ```
    /// // These tables have four actions, so 5 is no word.
    /// let tables = aberulwy::examples::trial_tables();
    /// let refusal = aberulwy::judge_plan(&tables, &[1, 5, 64]).unwrap_err();
    /// assert_eq!(refusal.number(), 12);
    /// ```
    pub fn number(self) -> u8 {
        self.number
    }

    /// The place as one number, as the program prints it: a triple as 1,024a + 32b + c, and
    /// 0 where none is named.
    ///
    /// ```
    /// let mut tables = aberulwy::examples::trial_tables();
    /// // 4 is below 1, and 1 below 4: the first triple at which the order fails is 1, 4, 0.
    /// tables[1025 + 32 * 4 + 1] = 1;
    /// let refusal = aberulwy::judge_tables(&tables).unwrap_err();
    /// assert_eq!((refusal.number(), refusal.printed()), (8, 1024 + 32 * 4));
    /// // Refusal 1 names no place.
    /// let refusal = aberulwy::judge_tables(&[]).unwrap_err();
    /// assert_eq!((refusal.number(), refusal.printed()), (1, 0));
    /// ```
    pub fn printed(self) -> usize {
        self.printed
    }

    /// The place: what the printed number says under this refusal's number.
    ///
    /// ```
    /// use aberulwy::{check_rewriting, judge_plan, judge_tables, Place};
    ///
    /// let mut tables = aberulwy::examples::trial_tables();
    /// let place = |plan: &[u8]| judge_plan(&tables, plan).unwrap_err().place();
    /// // 66 takes two operands.
    /// assert_eq!(place(&[1, 66]), Place::Byte(1));
    /// // Two plans are left over.
    /// assert_eq!(place(&[1, 2]), Place::Nowhere);
    ///
    /// // The second record names law 33; then the third step is law 4 from right to left, with a
    /// // left side of two actions side by side, which is no plan.
    /// let (start, mut a, mut b) = ([1, 2, 64], [0; 8], [0; 8]);
    /// let mut refusal = |rewriting: &[u8]| {
    ///     check_rewriting(&tables, &start, &start, rewriting, &mut a, &mut b).unwrap_err()
    /// };
    /// assert_eq!(refusal(&[1, 2, 0, 33, 2, 0]).place(), Place::Step(1));
    /// assert_eq!(refusal(&[1, 2, 0, 1, 2, 0, 132, 0, 0, 2, 0, 1, 1]).place(), Place::Step(2));
    ///
    /// // 4 is below 1, and 1 below 4.
    /// tables[1025 + 32 * 4 + 1] = 1;
    /// assert_eq!(judge_tables(&tables).unwrap_err().place(), Place::Triple(1, 4, 0));
    /// ```
    pub fn place(self) -> Place {
        match self.number {
            3 | 4 | 5 | 7 | 12 | 13 | 61 | 62 => Place::Byte(self.printed),
            6 | 8 => Place::Triple(
                (self.printed / 1024) as u8,
                (self.printed / 32 % 32) as u8,
                (self.printed % 32) as u8,
            ),
            17 | 75 => Place::Step(self.printed),
            _ => Place::Nowhere,
        }
    }

    /// The reason in words.
    ///
    /// ```
    /// let tables = aberulwy::examples::trial_tables();
    /// let refusal = aberulwy::judge_plan(&tables, &[1, 2]).unwrap_err();
    /// assert_eq!(refusal.number(), 14);
    /// assert_eq!(refusal.reason(), "more than one plan is left over");
    /// ```
    pub fn reason(self) -> &'static str {
        match self.number {
            1 => "the tables are not 2,305 bytes",
            2 => "the count of actions is not 1 to 31",
            3 => "an entry of the tables is out of range",
            4 => "dead stop communicates",
            5 => "communication is not commutative",
            6 => "communication is not associative",
            7 => "dead stop is not below every action",
            8 => "priority is not a strict partial order",
            11 => "the plan is empty or has more than 16,384 words",
            12 => "a byte of the plan is no word",
            13 => "a word of the plan has too few operands",
            14 => "more than one plan is left over",
            15 => "the plan is longer than the areas can hold",
            16 => "the last record of the rewriting is cut short",
            17 => "a record of the rewriting names no law",
            18 => "the claimed plan is no plan",
            51 => "the file is not 6 to 38 blocks long",
            52 => "a block's sum is wrong",
            53 => "a block's number is wrong",
            54 => "a block's kind, count or filling is wrong",
            55 => "an area is too small for the file's tables or plan",
            61 => "the text is no plan: it goes wrong at this place",
            62 => "a bracket of the text goes deeper than 200",
            63 => "the text's plan is longer than its area or than 16,384 words",
            70 => "the plan is not basic, or the marks of a walk are of another length",
            71 => "the message is an action outside 1 to n",
            72 => "no path goes on with the message",
            73 => "the two actions are equal, or one of them is outside 1 to n",
            74 => "the area is shorter than what is to be written into it",
            75 => "a left side that a record of the rewriting carries is no plan",
            _ => "an unlisted reason",
        }
    }
}

impl fmt::Display for Refusal {
    /// `refused N P`, as the program prints it, and the reason.
    fn fmt(&self, f: &mut fmt::Formatter<'_>) -> fmt::Result {
        let (number, printed) = (self.number, self.printed);
        write!(f, "refused {number} {printed}: {}", self.reason())
    }
}

impl Error for Refusal {}

#[cfg(test)]
mod tests {
    use super::*;

    #[test]
    fn places_by_number() {
        assert_eq!(
            Refusal::new(6, 1024 + 64 + 3).place(),
            Place::Triple(1, 2, 3)
        );
        assert_eq!(
            Refusal::new(8, 31 * 1057).place(),
            Place::Triple(31, 31, 31)
        );
        assert_eq!(Refusal::new(12, 7).place(), Place::Byte(7));
        assert_eq!(Refusal::new(17, 7).place(), Place::Step(7));
        assert_eq!(Refusal::new(75, 7).place(), Place::Step(7));
        assert_eq!(Refusal::new(55, 0).place(), Place::Nowhere);
        assert_eq!(Refusal::new(61, 7).place(), Place::Byte(7));
        assert_eq!(Refusal::new(62, 201).place(), Place::Byte(201));
        for number in [63, 70, 71, 72, 73, 74] {
            assert_eq!(Refusal::new(number, 0).place(), Place::Nowhere);
        }
    }
}
