//! Tables to try the calls with.

use crate::TABLES_LENGTH;

/// The tables of the trial trays (`examples/trays`): four actions, 1 and 2 communicate to 3,
/// dead stop is below all, 1 is below 4, and set 0 blocks 1 and 2.
///
/// ```
/// let tables = aberulwy::examples::trial_tables();
/// assert_eq!(aberulwy::judge_tables(&tables), Ok(()));
/// assert_eq!(tables[0], 4);
/// assert_eq!(tables[1 + 32 * 1 + 2], 3);
/// ```
pub fn trial_tables() -> [u8; TABLES_LENGTH] {
    let mut tables = [0; TABLES_LENGTH];
    tables[0] = 4;
    for (a, b) in [(1, 2), (2, 1)] {
        tables[1 + 32 * a + b] = 3;
    }
    for (low, high) in [(0, 1), (0, 2), (0, 3), (0, 4), (1, 4)] {
        tables[1025 + 32 * low + high] = 1;
    }
    for blocked in [1, 2] {
        tables[2049 + blocked] = 1;
    }
    tables
}
