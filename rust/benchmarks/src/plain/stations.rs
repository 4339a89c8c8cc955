//! Station files, written and read block by block. A block is an array of bytes, so that the
//! compiler knows how long it is.

use reference::plans::judge;
use reference::runs::set;
use reference::stations::{BLOCK, CONTENT, HEAD, MOST_BLOCKS, TABLE_BLOCKS};
use reference::tables::TABLES_LENGTH;
use reference::Refusal;
use std::ops::RangeInclusive;

type Block = [u8; BLOCK];

/// The last block of tables.
const LAST_OF_TABLES: usize = TABLE_BLOCKS - 1;
/// The words that the blocks of the longest file can hold, more than a plan may have.
const MOST_HELD: usize = CONTENT * (MOST_BLOCKS - TABLE_BLOCKS);

/// Writes a station file; the answer and the lent bytes are those of the library.
pub fn write_station(tables: &[u8], plan: &[u8], area: &mut [u8]) -> Result<usize, Refusal> {
    judge(tables, plan)?;
    let size = BLOCK * (TABLE_BLOCKS + plan.len().div_ceil(CONTENT));
    if area.len() < size {
        return Err(Refusal::nowhere(74));
    }
    let (file, behind) = area.split_at_mut(size);
    let (blocks, _) = file.as_chunks_mut();
    let parts = tables.chunks(CONTENT).chain(plan.chunks(CONTENT));
    for (number, (block, held)) in blocks.iter_mut().zip(parts).enumerate() {
        make(block, number, held);
    }
    behind.fill(0);
    Ok(size)
}

/// Makes a block: number, kind and count, what it holds, zeros behind, and the sum.
fn make(block: &mut Block, number: usize, held: &[u8]) {
    put_word(block, 0, number as u16);
    put_word(block, 2, kind(number));
    put_word(block, 4, held.len() as u16);
    let content = &mut block[HEAD..HEAD + CONTENT];
    content[..held.len()].copy_from_slice(held);
    content[held.len()..].fill(0);
    put_word(block, BLOCK - 2, sum(block));
}

/// Reads a station file; the answer and the lent bytes are those of the library.
pub fn read_station(
    file: &[u8],
    tables_area: &mut [u8],
    plan_area: &mut [u8],
) -> Result<usize, Refusal> {
    let (blocks, rest) = file.as_chunks();
    if !rest.is_empty() || !(TABLE_BLOCKS + 1..=MOST_BLOCKS).contains(&blocks.len()) {
        return Err(Refusal::nowhere(51));
    }
    for (number, block) in blocks.iter().enumerate() {
        judge_block(block, number, blocks.len())?;
    }
    let (of_tables, of_plan) = blocks.split_at(TABLE_BLOCKS);
    let (mut tables, mut plan) = ([0; TABLES_LENGTH], [0; MOST_HELD]);
    gather(of_tables, &mut tables);
    let size = gather(of_plan, &mut plan);
    let plan = &plan[..size];
    if tables_area.len() < TABLES_LENGTH || plan_area.len() < size {
        return Err(Refusal::nowhere(55));
    }
    judge(&tables, plan)?;
    set(tables_area, &tables);
    set(plan_area, plan);
    Ok(size)
}

/// A block of a file of so many: its sum, its number, then kind, count and the zeros behind.
fn judge_block(block: &Block, number: usize, blocks: usize) -> Result<(), Refusal> {
    if word(block, BLOCK - 2) != sum(block) {
        return Err(Refusal::nowhere(52));
    }
    if usize::from(word(block, 0)) != number {
        return Err(Refusal::nowhere(53));
    }
    let count = count(block);
    let right = word(block, 2) == kind(number)
        && counts(number, blocks).contains(&count)
        && block[HEAD + count..HEAD + CONTENT] == [0; CONTENT][count..];
    match right {
        true => Ok(()),
        false => Err(Refusal::nowhere(54)),
    }
}

/// Copies what right blocks hold, one after the other, and answers how many bytes that is.
fn gather(blocks: &[Block], held: &mut [u8]) -> usize {
    let mut size = 0;
    for block in blocks {
        let count = count(block);
        held[size..size + count].copy_from_slice(&block[HEAD..HEAD + count]);
        size += count;
    }
    size
}

/// The kind of a block: 1 for tables, 2 for the plan.
fn kind(number: usize) -> u16 {
    match number < TABLE_BLOCKS {
        true => 1,
        false => 2,
    }
}

/// How many bytes a block of a file of so many may hold.
fn counts(number: usize, blocks: usize) -> RangeInclusive<usize> {
    match number {
        LAST_OF_TABLES => {
            let left = TABLES_LENGTH - CONTENT * LAST_OF_TABLES;
            left..=left
        }
        _ if number + 1 == blocks => 1..=CONTENT,
        _ => CONTENT..=CONTENT,
    }
}

/// How many bytes a block says that it holds.
fn count(block: &Block) -> usize {
    word(block, 4).into()
}

/// The sum of all words of a block but the last, wrapping.
fn sum(block: &Block) -> u16 {
    let (words, _) = block[..BLOCK - 2].as_chunks();
    let words = words.iter().map(|&word| u16::from_le_bytes(word));
    words.fold(0, u16::wrapping_add)
}

fn word(block: &Block, at: usize) -> u16 {
    u16::from_le_bytes([block[at], block[at + 1]])
}

fn put_word(block: &mut Block, at: usize, word: u16) {
    block[at..at + 2].copy_from_slice(&word.to_le_bytes());
}
