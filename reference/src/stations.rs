//! Station files, read and written, and the program.
//!
//! ```
//! use reference::stations::{read_station, write_station};
//! use reference::tables::trial_tables;
//! use reference::Refusal;
//!
//! let (tables, plan, mut area) = (trial_tables(), [1, 2, 66], [9; 3073]);
//! let short = write_station(&tables, &plan, &mut area[..3071]);
//! assert_eq!(short, Err(Refusal::nowhere(74)));
//! assert_eq!(write_station(&tables, &plan, &mut area), Ok(3072));
//! assert_eq!(area[3072], 0);
//! let (mut tables_read, mut plan_read) = ([9; 2305], [9; 4]);
//! let read = read_station(&area[..3072], &mut tables_read, &mut plan_read);
//! assert_eq!((read, plan_read), (Ok(3), [1, 2, 66, 0]));
//! assert_eq!(tables_read, tables[..]);
//! ```

use crate::plans::{counts, judge, Counts};
use crate::refusals::Refusal;
use crate::runs::{reached, set};
use crate::tables::TABLES_LENGTH;
use crate::unfolding::{unfold, Answer, RECORD};
use std::fmt::Write;

/// "A station file has 6 to 38 blocks of 512 bytes".
pub const BLOCK: usize = 512;
/// "504 of content".
pub const CONTENT: usize = 504;
/// Where the content of a block begins, after number, kind and count.
pub const HEAD: usize = 6;
/// "Blocks 0 to 3 hold 504 each and block 4 holds 289 of tables".
pub const TABLE_BLOCKS: usize = 5;
const FEWEST_BLOCKS: usize = 6;
/// The blocks of the longest station file.
pub const MOST_BLOCKS: usize = 38;
const KIND_TABLES: usize = 1;
const KIND_PLAN: usize = 2;

/// Reads a station file into two areas, and answers the plan's length. "Output areas:
/// tables and plan, zeros after; untouched when refused."
pub fn read_station(
    file: &[u8],
    tables_area: &mut [u8],
    plan_area: &mut [u8],
) -> Result<usize, Refusal> {
    judge_file_length(file)?;
    judge_blocks(file)?;
    let content = contents(file);
    let (tables, plan) = content.split_at(TABLES_LENGTH);
    if tables_area.len() < TABLES_LENGTH || plan_area.len() < plan.len() {
        return Err(Refusal::nowhere(55));
    }
    judge(tables, plan)?;
    set(tables_area, tables);
    set(plan_area, plan);
    Ok(plan.len())
}

/// "Refused: 51 length".
fn judge_file_length(file: &[u8]) -> Result<(), Refusal> {
    let blocks = file.len() / BLOCK;
    if file.len().is_multiple_of(BLOCK) && (FEWEST_BLOCKS..=MOST_BLOCKS).contains(&blocks) {
        Ok(())
    } else {
        Err(Refusal::nowhere(51))
    }
}

/// "then block by block 52 sum, 53 number, 54 kind, count or filling".
fn judge_blocks(file: &[u8]) -> Result<(), Refusal> {
    let last = file.len() / BLOCK - 1;
    for (index, block) in file.chunks(BLOCK).enumerate() {
        if word(block, BLOCK - 2) != sum(block) as usize {
            return Err(Refusal::nowhere(52));
        }
        if word(block, 0) != index {
            return Err(Refusal::nowhere(53));
        }
        if !kind_right(block, index) || !count_right(block, index, last) || !filling_right(block) {
            return Err(Refusal::nowhere(54));
        }
    }
    Ok(())
}

/// The word at an index: "two bytes each, low first".
fn word(block: &[u8], index: usize) -> usize {
    block[index] as usize + 256 * block[index + 1] as usize
}

/// "the sum of the 255 words before it, wrapping at 65,536, two bytes to a word, low
/// first".
fn sum(block: &[u8]) -> u16 {
    let words = (0..BLOCK - 2).step_by(2).map(|index| word(block, index));
    (words.sum::<usize>() % 65_536) as u16
}

/// "kind (1 tables, 2 plan)".
fn kind_right(block: &[u8], index: usize) -> bool {
    let kind = if index < TABLE_BLOCKS {
        KIND_TABLES
    } else {
        KIND_PLAN
    };
    word(block, 2) == kind
}

/// "Blocks 0 to 3 hold 504 each and block 4 holds 289 of tables; plan blocks follow, all
/// full but the last (1 to 504)."
fn count_right(block: &[u8], index: usize, last: usize) -> bool {
    let count = word(block, 4);
    if index == TABLE_BLOCKS - 1 {
        count == TABLES_LENGTH - 4 * CONTENT
    } else if index == last {
        (1..=CONTENT).contains(&count)
    } else {
        count == CONTENT
    }
}

/// "504 of content, zero past the count"; the count is a right one.
fn filling_right(block: &[u8]) -> bool {
    let end = HEAD + word(block, 4);
    block[end..HEAD + CONTENT].iter().all(|&byte| byte == 0)
}

/// The content of all blocks, one after the other; the blocks are right ones.
fn contents(file: &[u8]) -> Vec<u8> {
    file.chunks(BLOCK)
        .flat_map(|block| &block[HEAD..HEAD + word(block, 4)])
        .copied()
        .collect()
}

/// Writes a station file into an area, and answers the file's length. "From accepted tables and
/// plan, write the blocks." (Request 106.)
pub fn write_station(tables: &[u8], plan: &[u8], area: &mut [u8]) -> Result<usize, Refusal> {
    // "Tables and plan are checked by 1 to 14 first."
    judge(tables, plan)?;
    let file = station_file(tables, plan);
    // "After those, an area shorter than the file gets 74 and keeps its bytes."
    if area.len() < file.len() {
        return Err(Refusal::nowhere(74));
    }
    // "A longer one is zero past the file."
    set(area, &file);
    Ok(file.len())
}

/// The blocks for tables of 2,305 bytes and a plan of 1 to 16,632 bytes. Neither is judged: a
/// file of refused tables, or of a refused plan, is made just so, and it is the reader that turns
/// it back.
pub fn station_file(tables: &[u8], plan: &[u8]) -> Vec<u8> {
    assert_eq!(tables.len(), TABLES_LENGTH);
    let tables = tables.chunks(CONTENT).map(|part| (KIND_TABLES, part));
    let plan = plan.chunks(CONTENT).map(|part| (KIND_PLAN, part));
    let mut file = Vec::new();
    for (index, (kind, content)) in tables.chain(plan).enumerate() {
        let mut block = vec![0; BLOCK];
        put_word(&mut block, 0, index);
        put_word(&mut block, 2, kind);
        put_word(&mut block, 4, content.len());
        block[HEAD..HEAD + content.len()].copy_from_slice(content);
        put_sum(&mut block);
        file.extend(block);
    }
    file
}

/// Sets the word at an index of a block.
pub fn put_word(block: &mut [u8], index: usize, value: usize) {
    block[index] = (value % 256) as u8;
    block[index + 1] = (value / 256 % 256) as u8;
}

/// Sets the last word of a block to the sum of the others.
pub fn put_sum(block: &mut [u8]) {
    let sum = sum(block);
    put_word(block, BLOCK - 2, sum as usize);
}

/// The text that the program prints for a station file: "allowance 5,000, plan area and
/// areas A and B 8,192 each, list 15,000".
pub fn program(input: &[u8]) -> String {
    let mut tables = vec![0; TABLES_LENGTH];
    let mut plan = vec![0; 8192];
    let size = match read_station(input, &mut tables, &mut plan) {
        Ok(size) => size,
        Err(refusal) => return refused_line(refusal),
    };
    let (mut list, mut a, mut b) = (vec![0; 15_000], vec![0; 8192], vec![0; 8192]);
    match unfold(&tables, &plan[..size], 5000, &mut list, &mut a, &mut b) {
        Answer::Refused(refusal) => refused_line(refusal),
        Answer::Ended {
            number,
            steps,
            size,
        } => {
            let reached = reached(&a, &b, steps, size);
            ended_text(number, reached, &list[..RECORD * steps])
        }
    }
}

/// The text that the program prints, put into an area with zeros behind: its length; none
/// where the area is too short, which then keeps its bytes.
pub fn list_station(file: &[u8], out: &mut [u8]) -> Option<usize> {
    let text = program(file);
    if text.len() > out.len() {
        return None;
    }
    set(out, text.as_bytes());
    Some(text.len())
}

/// "or only `refused N P`".
fn refused_line(refusal: Refusal) -> String {
    format!("refused {} {}\n", refusal.number, refusal.printed())
}

/// "It prints `end E steps S size Z orders O` (E is 0, 34 or 36), a line of the words
/// reached, then a line `law place` for each step"; and by request 103, "The printed first line
/// ends `orders O stuck K`."
fn ended_text(number: u8, reached: &[u8], records: &[u8]) -> String {
    let (steps, size) = (records.len() / RECORD, reached.len());
    let Counts { orders, stuck } = counts(reached);
    let mut text =
        format!("end {number} steps {steps} size {size} orders {orders} stuck {stuck}\n");
    let words: Vec<String> = reached.iter().map(u8::to_string).collect();
    text += &words.join(" ");
    text.push('\n');
    for record in records.chunks(RECORD) {
        writeln!(text, "{} {}", record[0], word(record, 1)).expect("a text takes lines");
    }
    text
}
