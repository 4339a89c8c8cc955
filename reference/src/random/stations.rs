//! Random station files: right ones and damaged ones, plans at the edges of blocks, and whole cases
//! of reading and of writing a file.

use super::cases::{tables_and_plan, AREA_EDGES};
use super::plans::plan;
use super::walks::count;
use super::Random;
use crate::plans::LONGEST_PLAN;
use crate::refusals::Refusal;
use crate::stations::{
    put_sum, put_word, read_station, station_file, write_station, BLOCK, CONTENT, HEAD,
    MOST_BLOCKS, TABLE_BLOCKS,
};
use crate::tables::TABLES_LENGTH;

/// What is handed to the reader of station files.
#[derive(Clone, Debug)]
pub struct StationCase {
    /// The file.
    pub file: Vec<u8>,
    /// The tables area, with the bytes it has before.
    pub tables: Vec<u8>,
    /// The plan area, with the bytes it has before.
    pub plan: Vec<u8>,
}

/// What the reader answers, and the lent bytes afterwards.
#[derive(Clone, Debug, PartialEq, Eq)]
pub struct StationRead {
    /// The plan's length, or the refusal.
    pub answer: Result<usize, Refusal>,
    /// The tables area.
    pub tables: Vec<u8>,
    /// The plan area.
    pub plan: Vec<u8>,
}

impl StationCase {
    /// Reads, leaving the case as it is.
    pub fn run(&self) -> StationRead {
        let (mut tables, mut plan) = (self.tables.clone(), self.plan.clone());
        let answer = read_station(&self.file, &mut tables, &mut plan);
        StationRead {
            answer,
            tables,
            plan,
        }
    }
}

/// What is handed to the writer of station files.
#[derive(Clone, Debug)]
pub struct WriteCase {
    /// The tables.
    pub tables: Vec<u8>,
    /// The plan.
    pub plan: Vec<u8>,
    /// The file's area, with the bytes it has before.
    pub area: Vec<u8>,
}

/// What the writer answers, and the lent bytes afterwards.
#[derive(Clone, Debug, PartialEq, Eq)]
pub struct StationWritten {
    /// The file's length, or the refusal.
    pub answer: Result<usize, Refusal>,
    /// The file's area.
    pub area: Vec<u8>,
}

impl WriteCase {
    /// Writes, leaving the case as it is.
    pub fn run(&self) -> StationWritten {
        let mut area = self.area.clone();
        let answer = write_station(&self.tables, &self.plan, &mut area);
        StationWritten { answer, area }
    }
}

/// A case for the reader of station files: mostly a right file, or one with one damage.
pub fn station_case(random: &mut Random) -> StationCase {
    let (file, words) = any_file(random);
    let tables = match random.below(8) {
        0 => random.near(TABLES_LENGTH, &[0, 1, 504, 4096]),
        _ => TABLES_LENGTH + random.below(3),
    };
    let plan = match random.below(6) {
        0 => random.near(words, &AREA_EDGES),
        1 => words,
        _ => words + random.below(40),
    };
    StationCase {
        file,
        tables: random.lent(tables),
        plan: random.lent(plan),
    }
}

/// A file, and the words of the plan it was made for.
pub fn any_file(random: &mut Random) -> (Vec<u8>, usize) {
    let (mut tables, plan) = tables_and_plan(random);
    tables.resize(TABLES_LENGTH, 0);
    let plan = match random.below(12) {
        0 => filled_plan(random, tables[0]),
        _ if plan.is_empty() => vec![0],
        _ => plan,
    };
    let mut file = station_file(&tables, &plan);
    if random.once_in(3) {
        damage_file(random, &mut file);
        while random.once_in(4) {
            damage_file(random, &mut file);
        }
    }
    (file, plan.len())
}

/// A plan that fills its last block, or is longer than a plan may be.
fn filled_plan(random: &mut Random, n: u8) -> Vec<u8> {
    let size = random.pick(&[
        CONTENT - 1,
        CONTENT,
        CONTENT + 1,
        2 * CONTENT,
        8192,
        8193,
        LONGEST_PLAN,
        LONGEST_PLAN + 1,
        33 * CONTENT,
    ]);
    plan(random, n.clamp(1, 31), size)
}

fn damage_file(random: &mut Random, file: &mut Vec<u8>) {
    let blocks = file.len() / BLOCK;
    if blocks == 0 || random.once_in(6) {
        let length = BLOCK * random.pick(&[0, 1, 5, 6, 38, 39, blocks + 1]);
        return file.resize(random.near(length, &[0, 1, file.len() + 1]), 0);
    }
    let any = random.below(blocks);
    let index = random.pick(&[0, 3, 4, 5, blocks - 1, any]).min(blocks - 1);
    let block = &mut file[BLOCK * index..BLOCK * (index + 1)];
    damage_block(random, block, index);
    if !random.once_in(4) {
        put_sum(block);
    }
}

fn damage_block(random: &mut Random, block: &mut [u8], index: usize) {
    match random.below(6) {
        0 => put_word(block, 0, random.pick(&[index + 1, index + 256, 0, 65_535])),
        1 => put_word(block, 2, random.pick(&[0, 1, 2, 3, 257, 258])),
        2 => put_word(
            block,
            4,
            random.pick(&[0, 1, 288, 289, 290, 503, 504, 505, 65_535]),
        ),
        3 => block[HEAD + CONTENT - 1] ^= random.pick(&[1, 64, 128]),
        4 => block[random.below(BLOCK)] ^= 1 << random.below(8),
        _ => {
            let count = block[4] as usize + 256 * block[5] as usize;
            block[HEAD + count.min(CONTENT - 1)] = 1;
        }
    }
}

/// A case for the writer of station files: mostly with accepted tables and plan, and an area as
/// long as the file or close to it. The area is drawn without regard to whether tables and plan
/// are accepted, so that one that is too short also comes with refused ones.
pub fn write_case(random: &mut Random) -> WriteCase {
    let (tables, any) = tables_and_plan(random);
    let plan = match random.below(4) {
        0 => plan_at_a_block_edge(random, count(&tables)),
        _ => any,
    };
    let area = area_length(random, file_length(plan.len()));
    WriteCase {
        tables,
        plan,
        area: random.lent(area),
    }
}

/// Sizes of plans at the edges of a block and of what a plan may be; 0 and the last one are
/// refused.
const BLOCK_EDGES: [usize; 14] = [
    0,
    1,
    CONTENT - 1,
    CONTENT,
    CONTENT + 1,
    2 * CONTENT - 1,
    2 * CONTENT,
    2 * CONTENT + 1,
    32 * CONTENT - 1,
    32 * CONTENT,
    32 * CONTENT + 1,
    LONGEST_PLAN - 1,
    LONGEST_PLAN,
    LONGEST_PLAN + 1,
];

/// A plan of a size at an edge, right but for its size.
fn plan_at_a_block_edge(random: &mut Random, n: u8) -> Vec<u8> {
    match random.pick(&BLOCK_EDGES) {
        0 => Vec::new(),
        size => plan(random, n, size),
    }
}

/// The bytes of the file for a plan of so many words: blocks of tables, and as many of the plan as
/// its words fill or begin.
pub fn file_length(words: usize) -> usize {
    BLOCK * (TABLE_BLOCKS + words.div_ceil(CONTENT))
}

/// Lengths of a file's area worth trying whatever the file: none, less than a block, the blocks of
/// the tables, and what holds every file.
const FILE_EDGES: [usize; 9] = [
    0,
    1,
    BLOCK - 1,
    BLOCK,
    TABLES_LENGTH,
    BLOCK * TABLE_BLOCKS,
    BLOCK * MOST_BLOCKS - 1,
    BLOCK * MOST_BLOCKS,
    BLOCK * MOST_BLOCKS + 1,
];

/// The length of an area for a file of so many bytes.
fn area_length(random: &mut Random, file: usize) -> usize {
    match random.below(16) {
        0 | 1 => file - 1,
        2 => file - BLOCK,
        3 => random.below(file),
        4 => 0,
        5 => random.pick(&FILE_EDGES),
        6 | 7 => file + 1,
        8 => file + BLOCK,
        9 => file + random.below(2 * BLOCK),
        10 => 2 * BLOCK * MOST_BLOCKS + random.below(BLOCK),
        _ => file,
    }
}

/// The written file handed to the reader, with areas that hold tables and plan exactly or are a
/// little longer: none where the writer refuses.
pub fn reread_case(random: &mut Random, case: &WriteCase) -> Option<StationCase> {
    let written = case.run();
    let length = written.answer.ok()?;
    let tables = TABLES_LENGTH + random.below(3);
    let plan = case.plan.len() + random.below(3);
    Some(StationCase {
        file: written.area[..length].to_vec(),
        tables: random.lent(tables),
        plan: random.lent(plan),
    })
}

/// What was read from a file handed to the writer, with an area that holds the file exactly or is a
/// little longer: none where the reader refuses.
pub fn rewrite_case(random: &mut Random, case: &StationCase) -> Option<WriteCase> {
    let read = case.run();
    let words = read.answer.ok()?;
    let area = case.file.len() + random.below(3);
    Some(WriteCase {
        tables: read.tables[..TABLES_LENGTH].to_vec(),
        plan: read.plan[..words].to_vec(),
        area: random.lent(area),
    })
}
