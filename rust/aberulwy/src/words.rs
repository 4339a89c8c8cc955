//! How many operands a word takes, and where a subplan begins.

/// How many operands a word of an accepted plan takes.
fn operands(word: u8) -> usize {
    match word {
        0..=31 => 0,
        64..=69 => 2,
        _ => 1,
    }
}

/// The subplan of an accepted plan whose last word has this index.
pub(crate) fn subplan(plan: &[u8], place: usize) -> &[u8] {
    // Back from the last word, until no operand is missing any more.
    let (mut missing, mut from) = (1, place + 1);
    while missing > 0 {
        from -= 1;
        missing = missing + operands(plan[from]) - 1;
    }
    &plan[from..=place]
}

#[cfg(test)]
mod tests {
    use super::*;

    #[test]
    fn subplans_by_their_last_words() {
        // H0((1·δ) # T(2)) + 3.
        let plan = [1, 0, 65, 2, 70, 66, 80, 3, 64];
        let from = [0, 1, 0, 3, 3, 0, 0, 7, 0];
        for (place, from) in from.into_iter().enumerate() {
            assert_eq!(subplan(&plan, place), &plan[from..=place]);
        }
    }

    /// The words of one operand, and of two.
    #[test]
    fn every_sign() {
        for word in (80..=87).chain([70]) {
            assert_eq!(subplan(&[1, 2, word], 2), [2, word]);
        }
        for word in 64..=69 {
            assert_eq!(subplan(&[1, 2, 3, word], 3), [2, 3, word]);
        }
        for word in 0..=31 {
            assert_eq!(subplan(&[1, word], 1), [word]);
        }
    }
}
