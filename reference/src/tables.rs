//! Tables: communication, priority and blocked sets, and when they are accepted.

pub use crate::refusals::{Place, Refusal};

/// "One slice of 2,305 bytes".
pub const TABLES_LENGTH: usize = 2305;
/// The largest count of actions: "byte 0 is n, the count of actions (1 to 31)".
pub const MOST_ACTIONS: u8 = 31;
/// "Action 0 is dead stop, written δ."
pub const DEAD_STOP: u8 = 0;
/// Where the 1,024 bytes of communication begin.
pub const COMMUNICATION: usize = 1;
/// Where the 1,024 bytes of priority begin.
pub const PRIORITY: usize = 1025;
/// Where the 256 bytes of blocked sets begin.
pub const SETS: usize = 2049;

/// "byte 0 is n, the count of actions".
pub fn actions(tables: &[u8]) -> u8 {
    tables[0]
}

/// Whether a byte is "an action outside 1 to n" (requests 102 and 105), as dead stop is.
pub fn outside(tables: &[u8], action: u8) -> bool {
    !(1..=actions(tables)).contains(&action)
}

/// "Then 1,024 bytes of communication: entry 32 × a + b is a|b."
pub fn communication(tables: &[u8], a: u8, b: u8) -> u8 {
    tables[COMMUNICATION + entry(a, b)]
}

/// "Then 1,024 of priority: entry 32 × a + b is 1 where a < b, else 0."
pub fn below(tables: &[u8], a: u8, b: u8) -> bool {
    tables[PRIORITY + entry(a, b)] == 1
}

/// "Then 256 of eight blocked sets: entry 32 × h + a is 1 where a is in set h."
pub fn blocked(tables: &[u8], set: u8, a: u8) -> bool {
    tables[SETS + entry(set, a)] == 1
}

/// Entry 32 × row + column.
pub fn entry(row: u8, column: u8) -> usize {
    32 * row as usize + column as usize
}

/// "Accepted when, in this order: length; n; every entry in range …; C3; C1; C2;
/// 0 < a for each a from 1 to n; and < irreflexive, asymmetric, transitive".
pub fn judge_tables(tables: &[u8]) -> Result<(), Refusal> {
    judge_length(tables)?;
    judge_count(tables)?;
    judge_entries(tables)?;
    judge_dead_stop_row(tables)?;
    judge_commutative(tables)?;
    judge_associative(tables)?;
    judge_dead_stop_below(tables)?;
    judge_strict_order(tables)
}

/// "1 tables not 2,305 bytes."
fn judge_length(tables: &[u8]) -> Result<(), Refusal> {
    if tables.len() == TABLES_LENGTH {
        Ok(())
    } else {
        Err(Refusal::nowhere(1))
    }
}

/// "2 n wrong."
fn judge_count(tables: &[u8]) -> Result<(), Refusal> {
    if (1..=MOST_ACTIONS).contains(&actions(tables)) {
        Ok(())
    } else {
        Err(Refusal::nowhere(2))
    }
}

/// "3 entry wrong (first byte)."
fn judge_entries(tables: &[u8]) -> Result<(), Refusal> {
    refuse_first_byte(3, (1..TABLES_LENGTH).find(|&i| !entry_right(tables, i)))
}

/// "every entry in range (communication 0 to n; others 0 or 1), zero where a row or
/// column of actions exceeds n, and action 0 in no set".
fn entry_right(tables: &[u8], index: usize) -> bool {
    let n = actions(tables);
    let value = tables[index];
    if index < PRIORITY {
        let (a, b) = row_and_column(index - COMMUNICATION);
        value == 0 || (value <= n && a <= n && b <= n)
    } else if index < SETS {
        let (a, b) = row_and_column(index - PRIORITY);
        value == 0 || (value == 1 && a <= n && b <= n)
    } else {
        let (_set, a) = row_and_column(index - SETS);
        value == 0 || (value == 1 && a <= n && a != DEAD_STOP)
    }
}

/// The row and the column of an entry.
fn row_and_column(entry: usize) -> (u8, u8) {
    ((entry / 32) as u8, (entry % 32) as u8)
}

/// "row and column 0 of communication all zero (C3)"; "4 C3 … (first byte at which
/// it fails)".
fn judge_dead_stop_row(tables: &[u8]) -> Result<(), Refusal> {
    refuse_first_byte(
        4,
        communication_bytes().find(|&i| {
            let (a, b) = row_and_column(i - COMMUNICATION);
            (a == DEAD_STOP || b == DEAD_STOP) && tables[i] != DEAD_STOP
        }),
    )
}

/// "a|b = b|a (C1)"; "5 C1 (first byte at which it fails)".
fn judge_commutative(tables: &[u8]) -> Result<(), Refusal> {
    refuse_first_byte(
        5,
        communication_bytes().find(|&i| {
            let (a, b) = row_and_column(i - COMMUNICATION);
            communication(tables, a, b) != communication(tables, b, a)
        }),
    )
}

/// The indexes of the bytes of communication.
fn communication_bytes() -> std::ops::Range<usize> {
    COMMUNICATION..PRIORITY
}

/// "6 the first triple in counting order at which C2 fails."
fn judge_associative(tables: &[u8]) -> Result<(), Refusal> {
    let together = |a, b| communication(tables, a, b);
    refuse_first_triple(6, tables, |a, b, c| {
        together(together(a, b), c) != together(a, together(b, c))
    })
}

/// "7 some 0<a missing (least such byte)."
fn judge_dead_stop_below(tables: &[u8]) -> Result<(), Refusal> {
    let missing = (1..=actions(tables)).find(|&a| !below(tables, DEAD_STOP, a));
    refuse_first_byte(7, missing.map(|a| PRIORITY + entry(DEAD_STOP, a)))
}

/// "8 not a strict partial order (first failing triple a, b, c: a<a; or a<b and b<a;
/// or a<b, b<c, not a<c)."
fn judge_strict_order(tables: &[u8]) -> Result<(), Refusal> {
    let less = |a, b| below(tables, a, b);
    refuse_first_triple(8, tables, |a, b, c| {
        less(a, a) || (less(a, b) && less(b, a)) || (less(a, b) && less(b, c) && !less(a, c))
    })
}

/// The refusal at the byte found, if one was.
fn refuse_first_byte(number: u8, found: Option<usize>) -> Result<(), Refusal> {
    match found {
        Some(index) => Err(Refusal::at_byte(number, index)),
        None => Ok(()),
    }
}

/// "Triples run over 0 to n, with a slowest."
fn refuse_first_triple(
    number: u8,
    tables: &[u8],
    fails: impl Fn(u8, u8, u8) -> bool,
) -> Result<(), Refusal> {
    let n = actions(tables);
    for a in 0..=n {
        for b in 0..=n {
            for c in 0..=n {
                if fails(a, b, c) {
                    return Err(Refusal::at_triple(number, (a, b, c)));
                }
            }
        }
    }
    Ok(())
}

/// The tables of the trial trays: "n = 4, 1|2 = 2|1 = 3, other communications 0; 0
/// below all, 1<4; set 0 = {1, 2}."
pub fn trial_tables() -> Vec<u8> {
    let mut tables = vec![0; TABLES_LENGTH];
    tables[0] = 4;
    tables[COMMUNICATION + entry(1, 2)] = 3;
    tables[COMMUNICATION + entry(2, 1)] = 3;
    for a in 1..=4 {
        tables[PRIORITY + entry(0, a)] = 1;
    }
    tables[PRIORITY + entry(1, 4)] = 1;
    tables[SETS + entry(0, 1)] = 1;
    tables[SETS + entry(0, 2)] = 1;
    tables
}

#[cfg(test)]
mod tests {
    use super::*;

    fn refused(change: impl Fn(&mut Vec<u8>)) -> (u8, usize) {
        let mut tables = trial_tables();
        change(&mut tables);
        let refusal = judge_tables(&tables).unwrap_err();
        (refusal.number, refusal.printed())
    }

    #[test]
    fn trial_tables_are_accepted() {
        assert_eq!(judge_tables(&trial_tables()), Ok(()));
    }

    #[test]
    fn length_and_count() {
        assert_eq!(refused(|t| t.clear()), (1, 0));
        assert_eq!(refused(|t| t.push(0)), (1, 0));
        assert_eq!(refused(|t| t.truncate(2304)), (1, 0));
        assert_eq!(refused(|t| t[0] = 0), (2, 0));
        assert_eq!(refused(|t| t[0] = 32), (2, 0));
    }

    #[test]
    fn entries() {
        assert_eq!(refused(|t| t[1 + 32 + 1] = 5), (3, 34));
        assert_eq!(refused(|t| t[1 + 32 * 5 + 1] = 1), (3, 162));
        assert_eq!(refused(|t| t[1025 + 5] = 1), (3, 1030));
        assert_eq!(refused(|t| t[1025 + 1] = 2), (3, 1026));
        assert_eq!(refused(|t| t[2049 + 32 * 7] = 1), (3, 2273));
        assert_eq!(refused(|t| t[2049 + 5] = 1), (3, 2054));
        assert_eq!(refused(|t| t[2304] = 1), (3, 2304));
    }

    #[test]
    fn communication_laws() {
        assert_eq!(refused(|t| (t[4], t[33]) = (1, 1)), (4, 4));
        assert_eq!(refused(|t| t[33] = 1), (4, 33));
        assert_eq!(refused(|t| t[1 + 32 * 3 + 1] = 2), (5, 36));
        // 3|3 = 1 alone: (1|2)|3 is 1 and 1|(2|3) is 0.
        assert_eq!(refused(|t| t[1 + 32 * 3 + 3] = 1), (6, 1024 + 64 + 3));
    }

    #[test]
    fn priority_laws() {
        assert_eq!(refused(|t| t[1025 + 3] = 0), (7, 1028));
        assert_eq!(refused(|t| t[1025 + 32 * 3 + 3] = 1), (8, 3 * 1024));
        assert_eq!(refused(|t| t[1025 + 32 * 2] = 1), (8, 64));
        assert_eq!(refused(|t| t[1025] = 1), (8, 0));
        let both = refused(|t| (t[1025 + 32 * 3 + 3], t[1025 + 32 * 4 + 2]) = (1, 1));
        assert_eq!(both, (8, 1024 + 4 * 32 + 2));
    }
}
