//! The grammar file: refusals 1 to 10 in their order, and the grammar that an accepted file holds.

use crate::calls::{Heading, Refusal};
use crate::grammar::Grammar;
use crate::record::{read_records, records_in, Record, Setting, RECORD};

pub const BLOCK: usize = 512;
pub const RECORDS_IN_BLOCK: usize = 21;

pub fn read(file: &[u8]) -> Result<Grammar, Refusal> {
    if file.is_empty() || file.len() % BLOCK != 0 || file.len() > 14 * BLOCK {
        return Err(Refusal::grammar(1, 0));
    }
    let blocks: Vec<&[u8]> = file.chunks(BLOCK).collect();
    for (k, block) in blocks.iter().enumerate() {
        if block[508..] != check(block).to_le_bytes() {
            return Err(Refusal::grammar(2, k));
        }
    }
    for (k, block) in blocks.iter().enumerate() {
        let kind = if k == 0 { 1 } else { 2 };
        if number(block, 0) as usize != k || block[2] != kind {
            return Err(Refusal::grammar(3, k));
        }
    }
    let heading = heading_of(blocks[0]);
    if wrong_heading(&heading) || unused_heading_byte_not_zero(blocks[0]) {
        return Err(Refusal::grammar(4, 0));
    }
    let rules = heading.rules as usize;
    if blocks.len() != 1 + rules.div_ceil(RECORDS_IN_BLOCK) {
        return Err(Refusal::grammar(5, 0));
    }
    for k in 1..blocks.len() {
        if blocks[k][3] as usize != records_held(rules, k) {
            return Err(Refusal::grammar(5, k));
        }
    }
    let records: Vec<Record> = blocks[1..].iter().flat_map(|block| records_in(&block[4..508])).take(rules).collect();
    let setting = setting_of(&heading);
    let read = read_records(&setting, &records)?;
    let last = blocks.len() - 1;
    if blocks[last][4 + RECORD * records_held(rules, last)..508].iter().any(|&b| b != 0) {
        return Err(Refusal::grammar(9, rules));
    }
    Ok(Grammar { dimensions: setting.dimensions, start: heading.start as usize, words: setting.words, rules: read })
}

/// The sum over bytes i = 0 to 507 of (i+1) times the byte.
pub fn check(block: &[u8]) -> u32 {
    (0..508).map(|i| (i as u32 + 1) * block[i] as u32).sum()
}

/// How many records rule block k holds: 21 in each but the last.
pub fn records_held(rules: usize, k: usize) -> usize {
    RECORDS_IN_BLOCK.min(rules - RECORDS_IN_BLOCK * (k - 1))
}

fn number(block: &[u8], at: usize) -> u16 {
    u16::from_le_bytes([block[at], block[at + 1]])
}

pub fn heading_of(block: &[u8]) -> Heading {
    Heading { categories: block[3], start: block[4], words: number(block, 5), rules: number(block, 7), dimensions: block[16..80].to_vec() }
}

/// 4: a value out of range, start not a category or not of dimension 1, a dimension byte of no category not 0.
pub fn wrong_heading(heading: &Heading) -> bool {
    let categories = heading.categories as usize;
    let start = heading.start as usize;
    !(1..=64).contains(&categories)
        || !(1..=4096).contains(&heading.words)
        || !(1..=256).contains(&heading.rules)
        || heading.dimensions.len() != 64
        || heading.dimensions[..categories].iter().any(|d| !(1..=4).contains(d))
        || heading.dimensions[categories..].iter().any(|&d| d != 0)
        || start >= categories
        || heading.dimensions[start] != 1
}

fn unused_heading_byte_not_zero(block: &[u8]) -> bool {
    block[9..16].iter().chain(&block[80..508]).any(|&b| b != 0)
}

pub fn setting_of(heading: &Heading) -> Setting {
    let categories = heading.categories as usize;
    Setting { dimensions: heading.dimensions[..categories].iter().map(|&d| d as usize).collect(), words: heading.words as usize }
}
