//! Station files written, through the safe call and the raw one: their bytes and lengths, what is
//! refused before a byte is written, what is read back, and files written again from what was read.

use aberulwy::examples::trial_tables;
use aberulwy::*;
use reference::random::plans::plan;
use reference::random::stations::{reread_case, rewrite_case, station_case, write_case};
use reference::random::tables::{lawful_tables, TRIAL_FAULTS};
use reference::random::Random;
use std::collections::BTreeSet;

/// What the areas hold before.
const BEFORE: u8 = 0xEE;

/// Sizes of plans, and the blocks of their files: five for the tables, and one for each 504 words
/// or part of them.
const SIZES: [(usize, usize); 12] = [
    (1, 6),
    (503, 6),
    (504, 6),
    (505, 7),
    (1007, 7),
    (1008, 7),
    (1009, 8),
    (16_127, 37),
    (16_128, 37),
    (16_129, 38),
    (16_383, 38),
    (16_384, 38),
];

/// The action 1 under so many signs of priority that the plan has this size.
fn deep(size: usize) -> Vec<u8> {
    let mut plan = vec![1];
    plan.resize(size, 70);
    plan
}

/// The area after a call that writes into so many bytes, and the answer. The raw call answers the
/// same, and leaves the same bytes.
fn written_in(tables: &[u8], plan: &[u8], area: usize) -> (Result<usize, Refusal>, Vec<u8>) {
    let (mut file, mut other) = (vec![BEFORE; area], vec![BEFORE; area]);
    let answer = write_station(tables, plan, &mut file);
    let (number, value, place) = match answer {
        Ok(size) => (0, size, 0),
        Err(refusal) => (refusal.number(), 0, refusal.printed()),
    };
    let wanted = raw::Counted {
        number,
        value,
        place,
    };
    assert_eq!(raw::write_station(tables, plan, &mut other), wanted);
    assert!(file == other);
    (answer, file)
}

/// The file of accepted tables and an accepted plan.
fn written(tables: &[u8], plan: &[u8]) -> Vec<u8> {
    let (answer, mut file) = written_in(tables, plan, LONGEST_STATION);
    file.truncate(answer.unwrap());
    file
}

/// A word of a block: two bytes, the low one first.
fn word(block: &[u8], at: usize) -> usize {
    block[at] as usize + 256 * block[at + 1] as usize
}

/// The file has the blocks that go with tables and plan: each its number, kind, count, content,
/// zeros up to 504 bytes of it, and the sum of the 255 words before.
fn has_blocks(file: &[u8], tables: &[u8], plan: &[u8]) {
    let contents = tables.chunks(504).map(|part| (1, part));
    let contents: Vec<(usize, &[u8])> = contents
        .chain(plan.chunks(504).map(|part| (2, part)))
        .collect();
    assert_eq!(file.len(), 512 * contents.len());
    for (index, (block, (kind, content))) in file.chunks(512).zip(contents).enumerate() {
        let head = [word(block, 0), word(block, 2), word(block, 4)];
        assert_eq!(head, [index, kind, content.len()]);
        let (used, filling) = block[6..510].split_at(content.len());
        assert!(used == content, "block {index}");
        assert!(filling.iter().all(|&byte| byte == 0), "block {index}");
        let sum: usize = (0..255).map(|at| word(block, 2 * at)).sum();
        assert_eq!(word(block, 510), sum % 65_536, "block {index}");
    }
}

#[test]
fn the_plan_block_of_the_first_tray() {
    let file = written(&trial_tables(), &[1, 2, 66]);
    assert_eq!(file.len(), 6 * 512);
    // Number 5, kind 2, three words, and 501 zeros; 5 + 2 + 3 + 513 + 66 is 589, 2 × 256 and 77.
    let head = [5, 0, 2, 0, 3, 0, 1, 2, 66];
    assert_eq!(file[5 * 512..], [&head[..], &[0; 501], &[77, 2]].concat());
}

#[test]
fn the_table_blocks_of_the_first_tray() {
    let tables = trial_tables();
    let file = written(&tables, &[1, 2, 66]);
    // Heads and sums by hand: n, 1|2 and 2|1 are in block 0; 0 < 1 to 0 < 4 and 1 < 4 in block 2;
    // 1 and 2 of set 0 in block 4. 289 is 256 and 33.
    for (index, count, sum) in [
        (0, [248, 1], 1 + 504 + 4 + 3 * 256 + 3),
        (1, [248, 1], 1 + 1 + 504),
        (2, [248, 1], 2 + 1 + 504 + 2 * 257 + 256),
        (3, [248, 1], 3 + 1 + 504),
        (4, [33, 1], 4 + 1 + 289 + 257),
    ] {
        let block = &file[512 * index..512 * (index + 1)];
        assert_eq!(block[..4], [index as u8, 0, 1, 0]);
        assert_eq!(block[4..6], count);
        assert_eq!(word(block, 510), sum, "block {index}");
    }
    // Whatever the plan is, the tables have the same blocks.
    assert!(file[..5 * 512] == written(&tables, &deep(LONGEST_PLAN))[..5 * 512]);
    has_blocks(&file, &tables, &[1, 2, 66]);
}

#[test]
fn a_full_block_whose_sum_wraps() {
    let file = written(&trial_tables(), &deep(505));
    let [full, last] = [&file[5 * 512..6 * 512], &file[6 * 512..]];
    // 5 + 2 + 504 + (1 + 256 × 70) + 251 × 70 × 257 is 4,533,922: 69 × 65,536, and 46 × 256, and
    // 162.
    let words = [&[5, 0, 2, 0, 248, 1, 1], &[70; 503][..]].concat();
    assert_eq!(full, [&words[..], &[162, 46]].concat());
    // One word is left for the next block.
    let head = [6, 0, 2, 0, 1, 0, 70];
    assert_eq!(last, [&head[..], &[0; 503], &[79, 0]].concat());
}

#[test]
fn lengths_and_areas() {
    let tables = trial_tables();
    for (size, blocks) in SIZES {
        let (plan, length) = (deep(size), 512 * blocks);
        let (answer, file) = written_in(&tables, &plan, length);
        assert_eq!(answer, Ok(length), "{size}");
        has_blocks(&file, &tables, &plan);
        for over in [1, 2, 511, 512, 513, 20_000] {
            let (answer, area) = written_in(&tables, &plan, length + over);
            assert_eq!(answer, Ok(length), "{size} {over}");
            assert!(area == [&file[..], &vec![0; over]].concat());
        }
        for area in [0, 1, 511, 512, 2560, length - 512, length - 2, length - 1] {
            refused(&tables, &plan, area, 74, 0);
        }
    }
    assert_eq!(written(&tables, &deep(LONGEST_PLAN)).len(), LONGEST_STATION);
}

/// The call is refused so, and the area keeps its bytes.
fn refused(tables: &[u8], plan: &[u8], area: usize, number: u8, place: usize) {
    let (answer, area) = written_in(tables, plan, area);
    let refusal = answer.unwrap_err();
    assert_eq!((refusal.number(), refusal.printed()), (number, place));
    assert!(area.iter().all(|&byte| byte == BEFORE), "{number}");
}

/// Plans that the tables of the trial trays refuse, with the number and the place.
fn refused_plans() -> [(Vec<u8>, u8, usize); 6] {
    [
        (vec![], 11, 0),
        (deep(LONGEST_PLAN + 1), 11, 0),
        (vec![1, 5, 66], 12, 1),
        (vec![1, 66], 13, 1),
        (vec![1, 2], 14, 0),
        (vec![1; LONGEST_PLAN], 14, 0),
    ]
}

#[test]
fn the_order_of_refusals() {
    let (tables, tray) = (trial_tables(), [1, 2, 66]);
    let plans = refused_plans().map(|(plan, ..)| plan);
    // No area, one byte too few for the tray's file, as many as it has, and enough for every file.
    for area in [0, 3071, 3072, LONGEST_STATION + 512] {
        // The tables' faults, with every other fault there too.
        for plan in plans.iter().map(Vec::as_slice).chain([&tray[..]]) {
            refused(&[], plan, area, 1, 0);
            refused(&tables[1..], plan, area, 1, 0);
            refused(&[&tables[..], &[0]].concat(), plan, area, 1, 0);
            for (index, byte, number, place) in TRIAL_FAULTS {
                let mut damaged = tables;
                damaged[index] = byte;
                refused(&damaged, plan, area, number, place);
            }
        }
        // The plan's faults, with an area that is too short for any plan's file, or long enough.
        for (plan, number, place) in refused_plans() {
            refused(&tables, &plan, area, number, place);
        }
    }
    // 74 alone, and no refusal.
    refused(&tables, &tray, 0, 74, 0);
    refused(&tables, &tray, 3071, 74, 0);
    assert_eq!(written_in(&tables, &tray, 3072).0, Ok(3072));
}

#[test]
fn the_place_of_74() {
    let refusal = write_station(&trial_tables(), &[1], &mut []).unwrap_err();
    assert_eq!((refusal.number(), refusal.place()), (74, Place::Nowhere));
    assert_eq!(
        refusal.reason(),
        "the area is shorter than what is to be written into it"
    );
    let told = format!("refused 74 0: {}", refusal.reason());
    assert_eq!(refusal.to_string(), told);
}

/// The file is read as these tables and this plan, in areas that hold them exactly and in longer
/// ones, with zeros behind.
fn reads_back(file: &[u8], tables: &[u8], plan: &[u8]) {
    for over in [0, 1, 600] {
        let mut tables_area = vec![BEFORE; TABLES_LENGTH + over];
        let mut plan_area = vec![BEFORE; plan.len() + over];
        let words = read_station(file, &mut tables_area, &mut plan_area);
        assert_eq!(words, Ok(plan.len()));
        assert!(tables_area == [tables, &vec![0; over]].concat());
        assert!(plan_area == [plan, &vec![0; over]].concat());
    }
}

#[test]
fn what_was_written_is_read() {
    let mut random = Random::new(106);
    for (size, _) in SIZES {
        for _ in 0..10 {
            let tables = lawful_tables(&mut random);
            let plan = plan(&mut random, tables[0], size);
            let file = written(&tables, &plan);
            has_blocks(&file, &tables, &plan);
            reads_back(&file, &tables, &plan);
        }
    }
}

#[test]
fn random_tables_and_plans() {
    let (mut random, mut numbers) = (Random::new(107), BTreeSet::new());
    for _ in 0..6000 {
        let case = write_case(&mut random);
        let (tables, plan) = (&case.tables[..], &case.plan[..]);
        let (area, length) = (case.area.len(), 512 * (5 + plan.len().div_ceil(504)));
        let (answer, file) = written_in(tables, plan, area);
        numbers.insert(answer.map_or_else(Refusal::number, |_| 0));
        match judge_plan(tables, plan) {
            Err(refusal) => refused(tables, plan, area, refusal.number(), refusal.printed()),
            Ok(()) if area < length => refused(tables, plan, area, 74, 0),
            Ok(()) => {
                assert_eq!(answer, Ok(length));
                let (file, behind) = file.split_at(length);
                has_blocks(file, tables, plan);
                assert!(behind.iter().all(|&byte| byte == 0));
                let reread = reread_case(&mut random, &case).unwrap();
                assert!(file == reread.file);
                reads_back(file, tables, plan);
            }
        }
    }
    let wanted = (0..=8).chain(11..=14).chain([74]);
    assert_eq!(numbers, wanted.collect());
}

/// What the library reads from a file is written as that file again, in an area that holds it
/// exactly and in a longer one: whether it opens.
fn is_written_again(file: &[u8]) -> bool {
    let (mut tables, mut plan) = (vec![BEFORE; TABLES_LENGTH], vec![BEFORE; LONGEST_PLAN]);
    let Ok(words) = read_station(file, &mut tables, &mut plan) else {
        return false;
    };
    for over in [0, 600] {
        let (answer, area) = written_in(&tables, &plan[..words], file.len() + over);
        assert_eq!(answer, Ok(file.len()));
        assert!(area == [file, &vec![0; over]].concat());
    }
    true
}

#[test]
fn what_was_read_is_written() {
    let (mut opened, mut refused, mut longest) = (0, 0, 0);
    for seed in 0..4000 {
        let mut random = Random::new(seed);
        let case = station_case(&mut random);
        if is_written_again(&case.file) {
            opened += 1;
            longest = longest.max(case.file.len());
        } else {
            refused += 1;
            assert!(rewrite_case(&mut random, &case).is_none());
        }
    }
    assert!(opened > 1500 && refused > 500, "{opened} {refused}");
    assert_eq!(longest, LONGEST_STATION);
}
