//! Station files written: their bytes and lengths, what is read back from them, files written anew
//! from what was read, and what is refused before a byte is written; and the stored files of
//! `examples/`, which the proved library made, with their texts.

use reference::random::plans::plan;
use reference::random::stations::{
    reread_case, rewrite_case, station_case, write_case, StationCase, WriteCase,
};
use reference::random::tables::{lawful_tables, TRIAL_FAULTS};
use reference::random::Random;
use reference::stations::{program, put_sum, write_station};
use reference::tables::{trial_tables, TABLES_LENGTH};
use reference::Refusal;
use std::collections::{BTreeMap, BTreeSet};
use std::fs;
use std::path::{Path, PathBuf};

/// A byte that an area holds afterwards only where it kept it.
const OLD: u8 = 0xEE;

/// Sizes of plans, the blocks of their files, and the words in the last block: 5 blocks hold the
/// tables, and each further one 504 words. 1,008 is 2 × 504, 16,128 is 32 × 504, and 16,384 is 256
/// more.
const SIZES: [(usize, usize, usize); 10] = [
    (1, 6, 1),
    (503, 6, 503),
    (504, 6, 504),
    (505, 7, 1),
    (1007, 7, 503),
    (1008, 7, 504),
    (1009, 8, 1),
    (16_128, 37, 504),
    (16_129, 38, 1),
    (16_384, 38, 256),
];

/// A case with an area of so many old bytes.
fn case(tables: &[u8], plan: &[u8], area: usize) -> WriteCase {
    WriteCase {
        tables: tables.to_vec(),
        plan: plan.to_vec(),
        area: vec![OLD; area],
    }
}

/// The file for accepted tables and plan, in an area that is longer than any; behind the file it
/// is zero.
fn written(tables: &[u8], plan: &[u8]) -> Vec<u8> {
    let mut outcome = case(tables, plan, 20_000).run();
    let length = outcome.answer.unwrap();
    assert!(outcome.area[length..].iter().all(|&byte| byte == 0));
    outcome.area.truncate(length);
    outcome.area
}

/// The action 1 under so many signs of priority that the plan has this size.
fn deep(size: usize) -> Vec<u8> {
    let mut plan = vec![1];
    plan.resize(size, 70);
    plan
}

#[test]
fn the_plan_block_of_the_first_tray() {
    let file = written(&trial_tables(), &[1, 2, 66]);
    assert_eq!(file.len(), 6 * 512);
    // Number, kind, count and the words; 5 + 2 + 3 + 0x0201 + 0x0042 is 0x024d.
    let mut block = [0; 512];
    block[..9].copy_from_slice(&[5, 0, 2, 0, 3, 0, 1, 2, 66]);
    block[510..].copy_from_slice(&[0x4d, 0x02]);
    assert_eq!(file[5 * 512..], block);
}

#[test]
fn the_table_blocks_of_the_first_tray() {
    let parts: [(usize, &[u8]); 15] = [
        // n is 4; 1|2 is byte 35 of the tables, and 2|1 byte 66.
        (0, &[0, 0, 1, 0, 0xf8, 0x01, 4]),
        (6 + 35, &[3]),
        (6 + 66, &[3]),
        // 0 + 1 + 504 + 4 + 0x0300 + 3 is 0x0500.
        (510, &[0x00, 0x05]),
        // 1 + 1 + 504 is 0x01fa.
        (512, &[1, 0, 1, 0, 0xf8, 0x01]),
        (1022, &[0xfa, 0x01]),
        // The content begins with byte 1,008 of the tables; 0 < 1 is byte 1,026, and 1 < 4 byte
        // 1,061.
        (1024, &[2, 0, 1, 0, 0xf8, 0x01]),
        (1024 + 6 + 18, &[1, 1, 1, 1]),
        (1024 + 6 + 53, &[1]),
        // 2 + 1 + 504 + 2 × 0x0101 + 0x0100 is 0x04fd.
        (1534, &[0xfd, 0x04]),
        // 3 + 1 + 504 is 0x01fc.
        (1536, &[3, 0, 1, 0, 0xf8, 0x01]),
        (2046, &[0xfc, 0x01]),
        // The content begins with byte 2,016; set 0 has 1 and 2 at bytes 2,050 and 2,051.
        (2048, &[4, 0, 1, 0, 0x21, 0x01]),
        (2048 + 6 + 34, &[1, 1]),
        // 4 + 1 + 289 + 0x0101 is 0x0227.
        (2558, &[0x27, 0x02]),
    ];
    let mut blocks = [0; 5 * 512];
    for (start, bytes) in parts {
        blocks[start..start + bytes.len()].copy_from_slice(bytes);
    }
    assert_eq!(written(&trial_tables(), &[1, 2, 66])[..5 * 512], blocks);
    assert_eq!(written(&trial_tables(), &deep(505))[..5 * 512], blocks);
}

#[test]
fn a_sum_that_wraps_and_a_block_behind_it() {
    let file = written(&trial_tables(), &deep(505));
    let [full, last] = [&file[5 * 512..6 * 512], &file[6 * 512..]];
    // 5 + 2 + 504 + 0x4601 + 251 × 0x4646 is 4,533,922, which is 69 × 65,536 and 0x2ea2.
    assert_eq!(full[..7], [5, 0, 2, 0, 0xf8, 0x01, 1]);
    assert!(full[7..510].iter().all(|&byte| byte == 70));
    assert_eq!(full[510..], [0xa2, 0x2e]);
    // 6 + 2 + 1 + 70 is 79.
    assert_eq!(last[..7], [6, 0, 2, 0, 1, 0, 70]);
    assert!(last[7..510].iter().all(|&byte| byte == 0));
    assert_eq!(last[510..], [79, 0]);
}

#[test]
fn lengths() {
    for (size, blocks, last) in SIZES {
        let file = written(&trial_tables(), &deep(size));
        assert_eq!(file.len(), 512 * blocks, "{size}");
        let count = &file[512 * (blocks - 1) + 4..][..2];
        assert_eq!(count, [last as u8, (last >> 8) as u8], "{size}");
    }
}

#[test]
fn areas() {
    for (size, blocks, _) in SIZES {
        let (tables, plan, length) = (trial_tables(), deep(size), 512 * blocks);
        let file = written(&tables, &plan);
        for area in [0, 1, 511, 512, 2560, length - 512, length - 2, length - 1] {
            let short = case(&tables, &plan, area).run();
            assert_eq!(short.answer, Err(Refusal::nowhere(74)), "{size} {area}");
            assert_eq!(short.area, vec![OLD; area], "{size} {area}");
        }
        for over in [0, 1, 511, 512, 513, 20_000] {
            let enough = case(&tables, &plan, length + over).run();
            assert_eq!(enough.answer, Ok(length), "{size} {over}");
            assert_eq!(enough.area, [&file[..], &vec![0; over]].concat());
        }
    }
}

/// Plans that are refused under the trial tables, with the number and the printed place.
fn refused_plans() -> Vec<(Vec<u8>, u8, usize)> {
    vec![
        (vec![], 11, 0),
        (deep(16_385), 11, 0),
        (vec![1, 5, 255, 66], 12, 1),
        (vec![1, 2, 66, 66, 255], 13, 3),
        (vec![1, 2], 14, 0),
        (vec![0; 16_384], 14, 0),
    ]
}

/// The case must be refused so, with its area as it was.
fn refuses(case: &WriteCase, number: u8, place: usize) {
    let written = case.run();
    let refusal = written.answer.unwrap_err();
    assert_eq!((refusal.number, refusal.printed()), (number, place));
    assert_eq!(written.area, case.area, "{number}");
}

#[test]
fn refusals_in_their_order() {
    let good = trial_tables();
    let plans = refused_plans().into_iter().map(|(plan, ..)| plan);
    let plans: Vec<Vec<u8>> = plans.chain([vec![1, 2, 66]]).collect();
    // Areas that are short, as long as the tray's file, and long enough for every file.
    for area in [0, 3071, 3072, 20_000] {
        for (plan, number, place) in refused_plans() {
            refuses(&case(&good, &plan, area), number, place);
        }
        for plan in &plans {
            for length in [0, 1, 2304, 2306, 4096] {
                let mut tables = good.clone();
                tables.resize(length, 0);
                refuses(&case(&tables, plan, area), 1, 0);
            }
            for (at, &(byte, value, number, place)) in TRIAL_FAULTS.iter().enumerate() {
                let mut tables = good.clone();
                tables[byte] = value;
                refuses(&case(&tables, plan, area), number, place);
                // Later faults besides, one after the other, change nothing.
                for &(byte, value, later, _) in &TRIAL_FAULTS[at + 1..] {
                    if later > number {
                        tables[byte] = value;
                        refuses(&case(&tables, plan, area), number, place);
                    }
                }
            }
        }
    }
    refuses(&case(&good, &[1, 2, 66], 3071), 74, 0);
}

/// The file must be read back as these tables and this plan, in areas that hold them exactly and
/// in longer ones.
fn reads_back(file: &[u8], tables: &[u8], plan: &[u8]) {
    for over in [0, 1, 700] {
        let read = StationCase {
            file: file.to_vec(),
            tables: vec![OLD; TABLES_LENGTH + over],
            plan: vec![OLD; plan.len() + over],
        }
        .run();
        assert_eq!(read.answer, Ok(plan.len()));
        assert_eq!(read.tables, [tables, &vec![0; over]].concat());
        assert_eq!(read.plan, [plan, &vec![0; over]].concat());
    }
}

#[test]
fn written_files_are_read_back() {
    let mut random = Random::new(101);
    for (size, ..) in SIZES {
        for _ in 0..10 {
            let tables = lawful_tables(&mut random);
            let plan = plan(&mut random, tables[0], size);
            reads_back(&written(&tables, &plan), &tables, &plan);
        }
    }
}

/// The station files in the folders of `examples/`.
fn examples() -> Vec<PathBuf> {
    let inside = |folder: &Path| {
        let entries = fs::read_dir(folder).unwrap();
        let paths: Vec<PathBuf> = entries.map(|entry| entry.unwrap().path()).collect();
        paths
    };
    let all = inside(&Path::new(env!("CARGO_MANIFEST_DIR")).join("../examples"));
    let folders = all.iter().filter(|path| path.is_dir());
    let files = folders.flat_map(|folder| inside(folder));
    let station = |path: &PathBuf| path.extension().is_some_and(|name| name == "station");
    files.filter(station).collect()
}

#[test]
fn the_examples_are_written_anew() {
    let (mut random, mut accepted) = (Random::new(102), 0);
    for path in examples() {
        let stored = StationCase {
            file: fs::read(&path).unwrap(),
            tables: vec![OLD; TABLES_LENGTH],
            plan: vec![OLD; 33 * 504],
        };
        let anew = rewrite_case(&mut random, &stored);
        // Those that the reader refuses are in a folder of their own.
        let refused = path.parent().unwrap().ends_with("refused");
        assert_eq!(anew.is_none(), refused, "{path:?}");
        if let Some(anew) = anew {
            is_written_anew(&anew, &stored.file);
            accepted += 1;
        }
    }
    // Nine of the trial trays, six of the bench, and two that stop.
    assert_eq!(accepted, 17);
}

#[test]
fn the_examples_have_the_texts_that_the_program_prints() {
    let paths = examples();
    assert_eq!(paths.len(), 36);
    for path in paths {
        let text = fs::read_to_string(path.with_extension("txt")).unwrap();
        assert_eq!(program(&fs::read(&path).unwrap()), text, "{path:?}");
    }
}

/// What was read from a file must be written as that file, with zeros behind.
fn is_written_anew(anew: &WriteCase, file: &[u8]) {
    let written = anew.run();
    assert_eq!(written.answer, Ok(file.len()));
    assert_eq!(written.area[..file.len()], *file);
    assert!(written.area[file.len()..].iter().all(|&byte| byte == 0));
}

#[test]
fn accepted_files_are_written_anew() {
    let (mut accepted, mut long, mut longest) = (0, 0, 0);
    for seed in 0..4000 {
        let mut random = Random::new(seed);
        let case = station_case(&mut random);
        if let Some(anew) = rewrite_case(&mut random, &case) {
            is_written_anew(&anew, &case.file);
            accepted += 1;
            long += usize::from(case.file.len() > 6 * 512);
            longest += usize::from(case.file.len() == 38 * 512);
        }
    }
    assert!(accepted > 1500, "{accepted}");
    assert!(long > 100 && longest > 20, "{long} {longest}");
}

#[test]
fn every_change_of_one_bit() {
    // Without a new sum no change is accepted; with it, every change of the sets' entries for 1 to
    // 4 is, and some of the words are: 1 to 0 or 3, 2 to 3 or 0, 66 to 67 or 64.
    let file = written(&trial_tables(), &[1, 2, 66]);
    let (mut random, mut accepted) = (Random::new(103), BTreeSet::new());
    for bit in 0..8 * file.len() {
        let (byte, block) = (bit / 8, bit / 8 / 512 * 512);
        let mut changed = StationCase {
            file: file.clone(),
            tables: vec![OLD; TABLES_LENGTH],
            plan: vec![OLD; 504],
        };
        changed.file[byte] ^= 1 << (bit % 8);
        assert!(rewrite_case(&mut random, &changed).is_none(), "{bit}");
        put_sum(&mut changed.file[block..block + 512]);
        if let Some(anew) = rewrite_case(&mut random, &changed) {
            is_written_anew(&anew, &changed.file);
            if byte % 512 < 510 {
                accepted.insert(bit);
            }
        }
    }
    let sets = (0..8).flat_map(|set| (1..=4).map(move |a| 2048 + 6 + 33 + 32 * set + a));
    let words = [(0, 0), (0, 1), (1, 0), (1, 1), (2, 0), (2, 1)];
    let words = words.map(|(word, bit)| 8 * (2560 + 6 + word) + bit);
    let wanted: BTreeSet<usize> = sets.map(|byte| 8 * byte).chain(words).collect();
    assert!(accepted.is_superset(&wanted), "{accepted:?}");
    let content = |bit: &usize| 504 * (bit / 8 / 512) + bit / 8 % 512 - 6;
    let part = |bit: &usize| match content(bit) {
        1..1025 => "communication",
        1025..2049 => "priority",
        2049..2305 => "sets",
        2520.. => "plan",
        _ => "elsewhere",
    };
    let mut parts = BTreeMap::new();
    for bit in &accepted {
        *parts.entry(part(bit)).or_insert(0) += 1;
    }
    let counts = [
        ("communication", 5),
        ("plan", 6),
        ("priority", 7),
        ("sets", 32),
    ];
    assert_eq!(parts, BTreeMap::from(counts));
}

#[test]
fn random_cases_are_answered_as_said() {
    let (mut random, mut numbers) = (Random::new(104), BTreeSet::new());
    for _ in 0..6000 {
        let case = write_case(&mut random);
        let written = case.run();
        let length = match written.answer {
            Ok(length) => length,
            Err(refusal) => {
                numbers.insert(refusal.number);
                assert_eq!(written.area, case.area);
                continue;
            }
        };
        numbers.insert(0);
        assert_eq!(length, 512 * (5 + case.plan.len().div_ceil(504)));
        assert!(written.area[length..].iter().all(|&byte| byte == 0));
        let reread = reread_case(&mut random, &case).unwrap();
        assert_eq!(reread.file, written.area[..length]);
        reads_back(&reread.file, &case.tables, &case.plan);
        assert_eq!(reread.run().answer, Ok(case.plan.len()));
        // What the area held before is gone.
        let mut other: Vec<u8> = case.area.iter().map(|byte| !byte).collect();
        let answer = write_station(&case.tables, &case.plan, &mut other);
        assert_eq!((answer, other), (Ok(length), written.area));
    }
    let wanted = (0..=8).chain(11..=14).chain([74]);
    assert_eq!(numbers, wanted.collect());
}
