//! The station files of the folder `examples/` and their texts, made by the library alone. What
//! opens is written by `write_station`. What is refused is a written file that was damaged
//! afterwards, since the writer turns back refused tables and plans; the file that is too long is
//! zeros. The texts are those of `list_station`. `tests/examples.rs` holds the folder against them.

use aberulwy::examples::trial_tables;
use aberulwy::{list_station, write_station, LONGEST_LISTING, LONGEST_STATION, TABLES_LENGTH};

/// Words of plans.
const DEAD_STOP: u8 = 0;
const CHOICE: u8 = 64;
const PRODUCT: u8 = 65;
const MERGE: u8 = 66;
const UNLESS: u8 = 69;
const THETA: u8 = 70;
const ENCAPSULATION: u8 = 80;

/// A folder, a name and the bytes of a station file.
type Station = (&'static str, &'static str, Vec<u8>);

/// Every file, by its path in the folder `examples/`: the station files, and beside each its text.
pub fn all() -> Vec<(String, Vec<u8>)> {
    let stations = [
        trays(),
        bench(),
        stopped(),
        refused_files(),
        refused_tables(),
        refused_plans(),
    ];
    let both = |(folder, name, file): Station| {
        let text = text(&file);
        [("station", file), ("txt", text)]
            .map(|(ending, bytes)| (format!("{folder}/{name}.{ending}"), bytes))
    };
    stations.into_iter().flatten().flat_map(both).collect()
}

/// The station file of accepted tables and an accepted plan.
fn written(tables: &[u8], plan: &[u8]) -> Vec<u8> {
    let mut file = vec![0; LONGEST_STATION];
    let size = write_station(tables, plan, &mut file).expect("tables and plan are accepted");
    file.truncate(size);
    file
}

/// What the program prints for a file.
fn text(file: &[u8]) -> Vec<u8> {
    let mut out = vec![0; LONGEST_LISTING];
    let text = list_station(file, &mut out).expect("there is room for every listing");
    text.to_vec()
}

/// The trial trays that are runs of the program.
fn trays() -> Vec<Station> {
    let trays: [(&str, &[u8]); 9] = [
        ("tray-1", &[1, 2, MERGE]),
        ("tray-2", &[1, 2, MERGE, ENCAPSULATION]),
        ("tray-3", &[1, 4, CHOICE, THETA]),
        ("tray-4", &[1, 2, CHOICE, THETA]),
        ("tray-5", &[1, 2, 4, PRODUCT, UNLESS]),
        ("tray-6-dead-stop", &[DEAD_STOP]),
        ("tray-6-then-dead-stop", &[1, DEAD_STOP, PRODUCT]),
        ("tray-7", &[DEAD_STOP, 1, PRODUCT]),
        ("tray-8", &[DEAD_STOP, DEAD_STOP, CHOICE]),
    ];
    let file = |(name, plan)| ("trays", name, written(&trial_tables(), plan));
    trays.into_iter().map(file).collect()
}

/// The actions of the bench: what a part offers, what the hub awaits, and what is seen when both
/// meet.
const WEIGHT: [u8; 3] = [1, 2, 3];
const FIRST_CAMERA: [u8; 3] = [4, 5, 6];
const SECOND_CAMERA: [u8; 3] = [7, 8, 9];
const TURN: [u8; 3] = [10, 11, 12];
const SETTLES: u8 = 13;

/// Where the tables say what two actions communicate to, whether one is below another, and whether
/// a set blocks an action.
fn together(a: u8, b: u8) -> usize {
    1 + 32 * a as usize + b as usize
}

fn below(low: u8, high: u8) -> usize {
    1025 + 32 * low as usize + high as usize
}

fn blocked(set: usize, action: u8) -> usize {
    2049 + 32 * set + action as usize
}

fn bench_tables() -> [u8; TABLES_LENGTH] {
    let mut tables = [0; TABLES_LENGTH];
    tables[0] = SETTLES;
    let pairs = [FIRST_CAMERA, SECOND_CAMERA, TURN, WEIGHT];
    for (set, [offered, awaited, met]) in pairs.into_iter().enumerate() {
        tables[together(offered, awaited)] = met;
        tables[together(awaited, offered)] = met;
        tables[blocked(set, offered)] = 1;
        tables[blocked(set, awaited)] = 1;
    }
    for action in 1..=SETTLES {
        tables[below(DEAD_STOP, action)] = 1;
    }
    tables[below(TURN[2], WEIGHT[2])] = 1;
    tables
}

/// Two coins on the turntable, with a hub that turns without the weight or waits for it, and a
/// balance that answers at once, must settle, or settles with a weight to offer or with none.
fn bench() -> Vec<Station> {
    let next = [TURN[1], SECOND_CAMERA[1], PRODUCT];
    let hasty = [&[WEIGHT[1], FIRST_CAMERA[1]], &next[..], &[PRODUCT, MERGE]].concat();
    let waiting = [&[WEIGHT[1], FIRST_CAMERA[1], MERGE], &next[..], &[PRODUCT]].concat();
    let quick: &[u8] = &[WEIGHT[0]];
    let late: &[u8] = &[SETTLES, WEIGHT[0], PRODUCT];
    let light: &[u8] = &[SETTLES, WEIGHT[0], PRODUCT, SETTLES, CHOICE];
    let file = |name, hub: &[u8], balance: &[u8]| {
        let mut plan = hub.to_vec();
        let parts = [&FIRST_CAMERA[..1], &SECOND_CAMERA[..1], &TURN[..1], balance];
        for (set, part) in parts.into_iter().enumerate() {
            plan.extend(part);
            plan.extend([MERGE, ENCAPSULATION + set as u8]);
        }
        plan.push(THETA);
        ("bench", name, written(&bench_tables(), &plan))
    };
    vec![
        file("clean-coin", &hasty, quick),
        file("clean-coin-hub-waits", &waiting, quick),
        file("crusted-coin", &hasty, late),
        file("crusted-coin-hub-waits", &waiting, late),
        file("light-coin", &hasty, light),
        file("light-coin-hub-waits", &waiting, light),
    ]
}

/// Unfoldings that do not finish: 34 and 36.
fn stopped() -> Vec<Station> {
    let five = [&[1, 1, PRODUCT], &[1, 1, PRODUCT, MERGE].repeat(4)[..]].concat();
    let choice = [&[3], &[3, CHOICE].repeat(1400)[..]].concat();
    let long = [&[1, 2, MERGE], &choice[..], &[MERGE]].concat();
    let file = |name, plan: &[u8]| ("stopped", name, written(&trial_tables(), plan));
    vec![file("34-allowance", &five), file("36-too-long", &long)]
}

/// The bytes of a block, how many of them are content, and where that begins.
const BLOCK: usize = 512;
const CONTENT: usize = 504;
const HEAD: usize = 6;

/// Where a byte of the tables stands in a file.
fn in_tables(index: usize) -> usize {
    BLOCK * (index / CONTENT) + HEAD + index % CONTENT
}

/// Where a word of the plan stands in a file: five blocks of tables are before it.
fn in_plan(index: usize) -> usize {
    5 * BLOCK + in_tables(index)
}

/// The file with some bytes changed, and each block summed again.
fn changed(mut file: Vec<u8>, changes: impl IntoIterator<Item = (usize, u8)>) -> Vec<u8> {
    for (place, value) in changes {
        file[place] = value;
    }
    for block in file.chunks_mut(BLOCK) {
        let (words, sum) = block.split_at_mut(BLOCK - 2);
        let words = words
            .chunks(2)
            .map(|word| u16::from_le_bytes([word[0], word[1]]));
        sum.copy_from_slice(&words.fold(0, u16::wrapping_add).to_le_bytes());
    }
    file
}

/// The first trial tray, which most of the refused files are damaged copies of.
fn tray() -> Vec<u8> {
    written(&trial_tables(), &[1, 2, MERGE])
}

/// Damage to the file itself: 51 to 55.
fn refused_files() -> Vec<Station> {
    let cut = |length| tray()[..length].to_vec();
    let mut wrong_sum = tray();
    wrong_sum[BLOCK - 1] ^= 1;
    // A choice of 4,097 actions, of whose signs the last alone stays. A plan of 8,193 words is too
    // long for the program before it is judged.
    let choice = [vec![1; 4097], vec![CHOICE; 4096]].concat();
    let choice = written(&trial_tables(), &choice);
    let long = changed(choice, (4097..8192).map(|index| (in_plan(index), 1)));
    vec![
        ("refused", "51-empty", cut(0)),
        ("refused", "51-cut", cut(6 * BLOCK - 1)),
        ("refused", "51-overlong", vec![0; 39 * BLOCK]),
        ("refused", "52-sum", wrong_sum),
        ("refused", "53-number", changed(tray(), [(BLOCK, 2)])),
        ("refused", "54-kind", changed(tray(), [(BLOCK + 2, 2)])),
        // 503 instead of 504, of which the high byte is 1.
        ("refused", "54-count", changed(tray(), [(4, 247)])),
        ("refused", "54-filling", changed(tray(), [(in_plan(4), 1)])),
        ("refused", "55-plan", long),
    ]
}

/// Damage to the tables: 2 to 8. (Blocks always hold 2,305 bytes of them, so 1 is never seen.)
fn refused_tables() -> Vec<Station> {
    let damages = [
        ("2-actions", 0, 32),
        ("3-entry", together(1, 2), 5),
        ("4-row-of-dead-stop", together(0, 1), 1),
        ("5-one-way", together(2, 1), 0),
        ("6-three-at-once", together(3, 3), 4),
        ("7-not-above-dead-stop", below(DEAD_STOP, 3), 0),
        ("8-order", below(4, 1), 1),
    ];
    let file = |(name, index, value)| {
        let file = changed(tray(), [(in_tables(index), value)]);
        ("refused", name, file)
    };
    damages.into_iter().map(file).collect()
}

/// Damage to the plan: 12 to 14. Each is an accepted plan of as many words, with its last word
/// changed: θ(1) gives those of two words.
fn refused_plans() -> Vec<Station> {
    let plans: [(&str, &[u8], u8); 3] = [
        ("12-no-word", &[1, 2, MERGE], 255),
        ("13-too-few", &[1, THETA], MERGE),
        ("14-two-plans", &[1, THETA], 2),
    ];
    let file = |(name, plan, last): (_, &[u8], _)| {
        let file = written(&trial_tables(), plan);
        let file = changed(file, [(in_plan(plan.len() - 1), last)]);
        ("refused", name, file)
    };
    plans.into_iter().map(file).collect()
}
