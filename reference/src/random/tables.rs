//! Random tables: lawful ones, and ones damaged in each of their parts.

use super::Random;
use crate::tables::{
    communication, entry, judge_tables, COMMUNICATION, MOST_ACTIONS, PRIORITY, SETS, TABLES_LENGTH,
};

/// Faults of the trial tables, one or two for each of refusals 2 to 8: the index of a byte, what it is
/// set to, the refusal's number and its printed place.
pub const TRIAL_FAULTS: [(usize, u8, u8, usize); 8] = [
    (0, 0, 2, 0),
    (0, 32, 2, 0),
    (1 + 32 + 5, 1, 3, 38),
    (1 + 1, 1, 4, 2),
    (66, 0, 5, 35),
    (1 + 32 * 3 + 3, 1, 6, 1024 + 32 * 2 + 3),
    (1026, 0, 7, 1026),
    (1025 + 32 * 4 + 1, 1, 8, 1024 + 32 * 4),
];

/// A communication function on 1 to m, as a closure on two actions.
type Together = Box<dyn Fn(u8, u8) -> u8>;

/// Accepted tables with any count of actions, small ones more often.
pub fn lawful_tables(random: &mut Random) -> Vec<u8> {
    let n = match random.below(4) {
        0 => random.pick(&[1, 2, 15, 16, 30, 31]),
        1 => random.between(1, MOST_ACTIONS as usize) as u8,
        _ => random.between(2, 6) as u8,
    };
    lawful_tables_over(random, n)
}

/// Accepted tables with n actions.
pub fn lawful_tables_over(random: &mut Random, n: u8) -> Vec<u8> {
    let mut tables = vec![0; TABLES_LENGTH];
    tables[0] = n;
    put_communication(random, &mut tables);
    put_priority(random, &mut tables);
    put_sets(random, &mut tables);
    debug_assert_eq!(judge_tables(&tables), Ok(()));
    tables
}

/// Puts in a lawful communication function: one of several kinds on some of the actions,
/// under other names.
fn put_communication(random: &mut Random, tables: &mut [u8]) {
    let n = tables[0];
    let (m, together) = communication_function(random, n);
    let name = random.shuffled(1, n);
    let named = |a: u8| if a == 0 { 0 } else { name[a as usize - 1] };
    for a in 1..=m {
        for b in 1..=m {
            tables[COMMUNICATION + entry(named(a), named(b))] = named(together(a, b));
        }
    }
}

/// A lawful communication function on 1 to m, where m is at most n.
fn communication_function(random: &mut Random, n: u8) -> (u8, Together) {
    let m = random.between(1, n as usize) as u8;
    let modulus = m as u16 + 1;
    let bits = (1..=5).rev().find(|&k| (1u8 << k) - 1 <= n).unwrap_or(1);
    let all_bits = (1u8 << bits) - 1;
    match random.below(12) {
        0 => (m, Box::new(|_, _| 0)),
        1 => (m, Box::new(move |a, b| if a + b <= m { a + b } else { 0 })),
        2 => (
            m,
            Box::new(move |a, b| (a as u16 * b as u16 % modulus) as u8),
        ),
        3 => (m, Box::new(|a, b| a.min(b))),
        4 => (m, Box::new(|a, b| a.max(b))),
        5 => (m, Box::new(move |a, b| (a - 1 + b - 1) % m + 1)),
        6 => (m, Box::new(|a, b| if a == b { a } else { 0 })),
        7 => (
            all_bits,
            Box::new(|a, b| if a & b == 0 { a | b } else { 0 }),
        ),
        8 => (all_bits, Box::new(|a, b| a & b)),
        9 | 10 => (n, handshakes(random, n)),
        _ => searched(random, n.min(3)),
    }
}

/// Handshakes: some actions communicate in pairs, to actions that communicate no more.
fn handshakes(random: &mut Random, n: u8) -> Together {
    let halves = n / 2;
    let mut results = vec![0; 1024];
    for a in 1..=halves {
        for b in a..=halves {
            if random.once_in(2) {
                let result = random.between(halves as usize + 1, n as usize) as u8;
                results[entry(a, b)] = result;
                results[entry(b, a)] = result;
            }
        }
    }
    Box::new(move |a, b| results[entry(a, b)])
}

/// Any commutative function on 1 to m, tried until one is associative too.
fn searched(random: &mut Random, m: u8) -> (u8, Together) {
    loop {
        let mut tried = vec![0; TABLES_LENGTH];
        for a in 1..=m {
            for b in a..=m {
                let result = random.below(m as usize + 1) as u8;
                tried[COMMUNICATION + entry(a, b)] = result;
                tried[COMMUNICATION + entry(b, a)] = result;
            }
        }
        if is_associative(&tried, m) {
            return (m, Box::new(move |a, b| communication(&tried, a, b)));
        }
    }
}

fn is_associative(tables: &[u8], m: u8) -> bool {
    let together = |a, b| communication(tables, a, b);
    let actions = || 1..=m;
    actions().all(|a| {
        actions()
            .all(|b| actions().all(|c| together(together(a, b), c) == together(a, together(b, c))))
    })
}

/// Puts in a strict partial order: some pairs of a random line, and what they imply.
fn put_priority(random: &mut Random, tables: &mut [u8]) {
    let n = tables[0];
    let line = random.shuffled(1, n);
    let rarity = random.pick(&[1, 2, 3, 8, 1000]);
    for (rank, &high) in line.iter().enumerate() {
        tables[PRIORITY + entry(0, high)] = 1;
        for &low in &line[..rank] {
            if random.once_in(rarity) {
                tables[PRIORITY + entry(low, high)] = 1;
            }
        }
    }
    close_order(tables, n);
}

/// Makes the relation transitive.
fn close_order(tables: &mut [u8], n: u8) {
    for middle in 1..=n {
        for low in 1..=n {
            for high in 1..=n {
                let through = tables[PRIORITY + entry(low, middle)] == 1
                    && tables[PRIORITY + entry(middle, high)] == 1;
                if through {
                    tables[PRIORITY + entry(low, high)] = 1;
                }
            }
        }
    }
}

/// Puts in eight blocked sets: empty, full, or with some actions.
fn put_sets(random: &mut Random, tables: &mut [u8]) {
    let n = tables[0];
    for set in 0..8 {
        let rarity = random.pick(&[1, 2, 3, 1000]);
        for a in 1..=n {
            tables[SETS + entry(set, a)] = random.once_in(rarity) as u8;
        }
    }
}

/// Tables with damage; by chance, they may still be accepted.
pub fn damaged_tables(random: &mut Random) -> Vec<u8> {
    let mut tables = lawful_tables(random);
    damage(random, &mut tables);
    while random.once_in(4) && tables.len() == TABLES_LENGTH {
        damage(random, &mut tables);
    }
    tables
}

fn damage(random: &mut Random, tables: &mut Vec<u8>) {
    match random.below(10) {
        0 => damage_length(random, tables),
        1 => tables[0] = random.pick(&[0, 1, 2, 30, 31, 32, 33, 128, 255]),
        2 | 3 => damage_any_entry(random, tables),
        4 => damage_beyond(random, tables),
        5 => damage_dead_stop(random, tables),
        6 => damage_one_communication(random, tables),
        7 => damage_two_communications(random, tables),
        8 => damage_bottom(random, tables),
        _ => damage_order(random, tables),
    }
}

fn damage_length(random: &mut Random, tables: &mut Vec<u8>) {
    let length = random.pick(&[0, 1, 2, 512, 2304, 2306, 4096]);
    tables.resize(length, 0);
}

/// Any entry gets a value that is often out of range.
fn damage_any_entry(random: &mut Random, tables: &mut [u8]) {
    let n = tables[0];
    let index = match random.below(3) {
        0 => random.between(COMMUNICATION, PRIORITY - 1),
        1 => random.between(PRIORITY, SETS - 1),
        _ => random.between(SETS, TABLES_LENGTH - 1),
    };
    tables[index] = random.pick(&[1, 2, n, n.wrapping_add(1), 32, 255]);
}

/// An entry just beyond n, or of action 0 in a set.
fn damage_beyond(random: &mut Random, tables: &mut [u8]) {
    let beyond = tables[0].clamp(0, 30) + 1;
    let inside = random.below(32) as u8;
    let part = random.pick(&[COMMUNICATION, PRIORITY]);
    let index = match random.below(5) {
        0 => part + entry(beyond, inside),
        1 => part + entry(inside, beyond),
        2 => SETS + entry(random.below(8) as u8, beyond),
        3 => random.pick(&[1024, 2048, 2304]),
        _ => SETS + entry(random.below(8) as u8, 0),
    };
    tables[index] = 1;
}

/// Dead stop communicates (C3).
fn damage_dead_stop(random: &mut Random, tables: &mut [u8]) {
    let (a, result) = (any_action(random, tables), any_action(random, tables));
    let (row, column) = random.pick(&[(0, a), (a, 0), (0, 0)]);
    tables[COMMUNICATION + entry(row, column)] = result;
    if random.once_in(3) {
        tables[COMMUNICATION + entry(column, row)] = result;
    }
}

/// One entry of two changes (C1, or C2 on the diagonal).
fn damage_one_communication(random: &mut Random, tables: &mut [u8]) {
    let (a, b) = (any_action(random, tables), any_action(random, tables));
    tables[COMMUNICATION + entry(a, b)] = action_or_dead_stop(random, tables);
}

/// Both entries change (C2).
fn damage_two_communications(random: &mut Random, tables: &mut [u8]) {
    let (a, b) = (any_action(random, tables), any_action(random, tables));
    let result = action_or_dead_stop(random, tables);
    tables[COMMUNICATION + entry(a, b)] = result;
    tables[COMMUNICATION + entry(b, a)] = result;
}

/// Some 0 < a is missing.
fn damage_bottom(random: &mut Random, tables: &mut [u8]) {
    let a = any_action(random, tables);
    tables[PRIORITY + entry(0, a)] = 0;
}

/// A pair is put into the order or taken out of it.
fn damage_order(random: &mut Random, tables: &mut [u8]) {
    let a = action_or_dead_stop(random, tables);
    let b = match random.below(3) {
        0 => a,
        _ => action_or_dead_stop(random, tables),
    };
    let index = PRIORITY + entry(a, b);
    tables[index] = match tables[index] {
        0 => 1,
        _ => 0,
    };
}

/// An action from 1 to n, also where n itself is damaged.
fn any_action(random: &mut Random, tables: &[u8]) -> u8 {
    random.between(1, tables[0].clamp(1, MOST_ACTIONS) as usize) as u8
}

fn action_or_dead_stop(random: &mut Random, tables: &[u8]) -> u8 {
    random.between(0, tables[0].clamp(1, MOST_ACTIONS) as usize) as u8
}
