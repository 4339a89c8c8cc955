//! How many operands each byte takes, as `judge_plan` shows it. A byte of count 3 is refused as no
//! word before its count is asked for: that its count is 3 is proved, and no call shows it.

use aberulwy::raw::{judge_plan, Judged};
use reference::tables::{entry, MOST_ACTIONS, PRIORITY, TABLES_LENGTH};

/// The table of document 01, by runs of equal counts: the count, and for how many bytes. A byte of
/// count 3 is no word.
const TABLE: [(usize, usize); 7] = [(0, 32), (3, 32), (2, 6), (1, 1), (3, 9), (1, 8), (3, 168)];

/// Tables of as many actions as there can be, so that every byte from 0 to 31 is a word; without
/// communication, and 0 below all.
fn tables() -> Vec<u8> {
    let mut tables = vec![0; TABLES_LENGTH];
    tables[0] = MOST_ACTIONS;
    for a in 1..=MOST_ACTIONS {
        tables[PRIORITY + entry(0, a)] = 1;
    }
    tables
}

/// "Every byte gives the count it gave."
#[test]
fn every_byte_takes_what_it_took() {
    let tables = tables();
    let runs = TABLE.map(|(count, bytes)| vec![count; bytes]).concat();
    assert_eq!(runs.len(), 256);
    for (byte, count) in (0..=255).zip(runs) {
        // Behind fewer actions it lacks operands, behind more of them some are left over.
        for actions in 0..=3 {
            let mut plan = vec![1; actions];
            plan.push(byte);
            let (number, place) = match count {
                3 => (12, actions),
                _ if actions < count => (13, actions),
                _ if actions > count => (14, 0),
                _ => (0, 0),
            };
            assert_eq!(
                judge_plan(&tables, &plan),
                Judged { number, place },
                "{plan:?}"
            );
        }
    }
}
