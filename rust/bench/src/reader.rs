//! The reader of the grammar file in plain Rust: refusals 1 to 10 in their order, read where the bytes lie. Nothing is allocated.

use std::mem;

use reference::file::{BLOCK, RECORDS_IN_BLOCK};
use reference::grammar::EMPTY_WORD;
use reference::record::{RECORD, WEIGHT};
use reference::Refusal;

/// Where the check of a block stands.
const CHECK: usize = 508;

type Block = [u8; BLOCK];
type Record = [u8; RECORD];

/// The number of rules, or the first refusal.
pub fn read(file: &[u8]) -> Result<u32, Refusal> {
    let (blocks, rest) = file.as_chunks::<BLOCK>();
    if !rest.is_empty() || !(1..=14).contains(&blocks.len()) {
        return Err(Refusal::grammar(1, 0));
    }
    first(blocks, 0, 2, |_, block| check(block).to_le_bytes() != block[CHECK..])?;
    first(blocks, 0, 3, |k, block| number(block, 0) as usize != k || block[2] != if k == 0 { 1 } else { 2 })?;
    let heading = &blocks[0];
    if wrong_heading(heading) {
        return Err(Refusal::grammar(4, 0));
    }
    let rules = number(heading, 7) as usize;
    if blocks.len() != 1 + rules.div_ceil(RECORDS_IN_BLOCK) {
        return Err(Refusal::grammar(5, 0));
    }
    first(blocks, 1, 5, |k, block| block[3] as usize != held(rules, k))?;
    let dimensions = &heading[16..16 + heading[3] as usize];
    let chain = chain(blocks, rules);
    for r in 0..rules {
        rule_refusal(blocks, dimensions, number(heading, 5), &chain, r)?;
    }
    let last = blocks.len() - 1;
    if !zero(&blocks[last][4 + RECORD * held(rules, last)..CHECK]) {
        return Err(Refusal::grammar(9, rules));
    }
    Ok(rules as u32)
}

/// The refusal of that number at the first block, from block `from` on, that the test meets.
fn first(blocks: &[Block], from: usize, number: u8, meets: impl Fn(usize, &Block) -> bool) -> Result<(), Refusal> {
    match (from..blocks.len()).find(|&k| meets(k, &blocks[k])) {
        Some(k) => Err(Refusal::grammar(number, k)),
        None => Ok(()),
    }
}

/// Four bytes a turn, from the last turn to the first: the sums of the bytes in the four places, and the sums of these sums.
pub fn check(block: &Block) -> u32 {
    let (mut sums, mut of_sums) = ([0; 4], [0; 4]);
    for turn in block[..CHECK].as_chunks::<4>().0.iter().rev() {
        for place in 0..4 {
            sums[place] += turn[place] as u32;
            of_sums[place] += sums[place];
        }
    }
    (0..4).map(|place| 4 * of_sums[place] - (3 - place as u32) * sums[place]).sum()
}

/// How many records rule block k holds.
fn held(rules: usize, k: usize) -> usize {
    RECORDS_IN_BLOCK.min(rules - RECORDS_IN_BLOCK * (k - 1))
}

fn number(bytes: &[u8], at: usize) -> u16 {
    u16::from_le_bytes([bytes[at], bytes[at + 1]])
}

fn zero(bytes: &[u8]) -> bool {
    bytes.iter().fold(0, |all, &byte| all | byte) == 0
}

/// 4.
fn wrong_heading(heading: &Block) -> bool {
    let (categories, start) = (heading[3] as usize, heading[4] as usize);
    !(1..=64).contains(&categories)
        || !(1..=4096).contains(&number(heading, 5))
        || !(1..=256).contains(&number(heading, 7))
        || !heading[16..16 + categories].iter().all(|dimension| (1..=4).contains(dimension))
        || start >= categories
        || heading[16 + start] != 1
        || !zero(&heading[9..16])
        || !zero(&heading[16 + categories..CHECK])
}

fn record(blocks: &[Block], r: usize) -> &Record {
    let at = 4 + RECORD * (r % RECORDS_IN_BLOCK);
    blocks[1 + r / RECORDS_IN_BLOCK][at..].first_chunk().expect("a block has 21 records")
}

/// 6 to 10 of rule r.
fn rule_refusal(blocks: &[Block], dimensions: &[u8], words: u16, chain: &Chain, r: usize) -> Result<(), Refusal> {
    let record = record(blocks, r);
    match record_refusal(dimensions, words, record) {
        Some(number) => Err(Refusal::grammar(number, r)),
        None if repeated(blocks, chain, record, r) => Err(Refusal::grammar(10, r)),
        None => Ok(()),
    }
}

/// The number of the first refusal of 6 to 9.
fn record_refusal(dimensions: &[u8], words: u16, record: &Record) -> Option<u8> {
    let (category, count) = (record[0] as usize, record[1] as usize);
    if category >= dimensions.len() || count > 3 {
        return Some(6);
    }
    let daughters = &record[2..2 + count];
    if daughters.iter().any(|&daughter| daughter as usize >= dimensions.len()) {
        return Some(6);
    }
    let dimension = dimensions[category] as usize;
    if count == 0 {
        let word = number(record, 5);
        return if dimension != 1 || (word >= words && word != EMPTY_WORD) {
            Some(7)
        } else if !zero(&record[2..5]) || !zero(&record[7..WEIGHT]) {
            Some(9)
        } else {
            None
        };
    }
    let variables = daughters.iter().map(|&daughter| dimensions[daughter as usize] as usize).sum();
    let lengths: usize = record[7..7 + dimension].iter().map(|&length| length as usize).sum();
    if lengths != variables || !each_once(dimensions, daughters, &record[11..11 + variables]) {
        return Some(8);
    }
    let unused = [2 + count..7, 7 + dimension..11, 11 + variables..WEIGHT];
    unused.into_iter().any(|part| !zero(&record[part])).then_some(9)
}

/// Whether every variable of every daughter occurs exactly once.
fn each_once(dimensions: &[u8], daughters: &[u8], named: &[u8]) -> bool {
    for (position, &daughter) in daughters.iter().enumerate() {
        for component in 0..dimensions[daughter as usize] {
            let variable = 4 * position as u8 + component;
            if named.iter().filter(|&&other| other == variable).count() != 1 {
                return false;
            }
        }
    }
    true
}

/// For each rule one more than the number of the latest rule before it with the same hash, or 0.
type Chain = [u16; 256];

fn chain(blocks: &[Block], rules: usize) -> Chain {
    let mut latest = [0; 256];
    let mut chain = [0; 256];
    for r in 0..rules {
        chain[r] = mem::replace(&mut latest[hash(record(blocks, r)) as usize], r as u16 + 1);
    }
    chain
}

/// Of category, daughters and word.
fn hash(record: &Record) -> u8 {
    let term = |factor: u8, byte: usize| factor.wrapping_mul(record[byte]);
    [term(29, 0), term(17, 2), term(17, 3), term(17, 4), term(1, 5), term(37, 6)].into_iter().fold(0, u8::wrapping_add)
}

/// 10: compared with the rules of its chain that have the same category, number of daughters, word and component lengths.
fn repeated(blocks: &[Block], chain: &Chain, later: &Record, r: usize) -> bool {
    let mut forms = None;
    let mut next = chain[r] as usize;
    while next > 0 {
        let earlier = record(blocks, next - 1);
        if earlier[..2] == later[..2] && earlier[5..11] == later[5..11] {
            let (forms, orders) = forms.get_or_insert_with(|| in_every_order(later));
            if forms[..*orders].contains(&form(earlier)) {
                return true;
            }
        }
        next = chain[next - 1] as usize;
    }
    false
}

/// A record without its weight, as three numbers.
type Form = (u64, u64, u64);

fn form(record: &Record) -> Form {
    let [first, second, third] = [0, 8, 16].map(|at| u64::from_le_bytes(*record[at..].first_chunk().expect("a record has 24 bytes")));
    (first, second, third & u64::MAX >> 8)
}

/// The forms of a record that does not meet 6 to 9 in every order of its daughters, and how many orders there are.
fn in_every_order(record: &Record) -> ([Form; 6], usize) {
    let orders = NUMBER_OF_ORDERS[record[1] as usize];
    let mut forms = [(0, 0, 0); 6];
    for (place, order) in forms.iter_mut().zip(&ORDERS[..orders]) {
        *place = form(&reordered(record, order));
    }
    (forms, orders)
}

/// How many of the orders are those of 0 to 3 daughters.
const NUMBER_OF_ORDERS: [usize; 4] = [1, 1, 2, 6];

/// An order of three daughters: for each new position the old one, and for each variable its new number.
struct Order {
    old: [usize; 3],
    renumbered: [u8; 12],
}

static ORDERS: [Order; 6] = [order([0, 1, 2]), order([1, 0, 2]), order([0, 2, 1]), order([1, 2, 0]), order([2, 0, 1]), order([2, 1, 0])];

const fn order(old: [usize; 3]) -> Order {
    let mut renumbered = [0; 12];
    let mut at = 0;
    while at < 12 {
        let (new, component) = (at / 4, at % 4);
        renumbered[4 * old[new] + component] = at as u8;
        at += 1;
    }
    Order { old, renumbered }
}

fn reordered(record: &Record, order: &Order) -> Record {
    let mut reordered = *record;
    for (new, &old) in order.old.iter().enumerate() {
        reordered[2 + new] = record[2 + old];
    }
    let variables: usize = record[7..11].iter().map(|&length| length as usize).sum();
    for variable in &mut reordered[11..11 + variables] {
        *variable = order.renumbered[*variable as usize];
    }
    reordered
}

#[cfg(test)]
mod tests {
    use super::*;
    use reference::notation::grammar_file;
    use reference::samples::SMALL;

    /// Small grammars with each byte changed, full files with some, in three ways each, the block's check wrong and right.
    #[test]
    fn agrees_with_the_reference() {
        let small = SMALL.iter().map(|text| (grammar_file(text), 1));
        let full = crate::files::full().into_iter().map(|(_, file)| (file, 41));
        let mut seen = [0; 11];
        for (file, step) in small.chain(full) {
            agrees(&file, &mut seen);
            for at in (0..file.len()).step_by(step) {
                for change in [1, 64, 255] {
                    let mut changed = file.clone();
                    changed[at] = changed[at].wrapping_add(change);
                    agrees(&changed, &mut seen);
                    let block: &mut Block = (&mut changed[at / BLOCK * BLOCK..][..BLOCK]).try_into().unwrap();
                    let sum = check(block);
                    block[CHECK..].copy_from_slice(&sum.to_le_bytes());
                    agrees(&changed, &mut seen);
                }
            }
            agrees(&file[..file.len() - 1], &mut seen);
            agrees(&[file, vec![0; BLOCK]].concat(), &mut seen);
        }
        agrees(&[], &mut seen);
        assert!(seen.iter().all(|&times| times > 0), "{seen:?}");
    }

    /// Each rule of small grammars in the place of each, and some rules of full files in the place of others.
    #[test]
    fn agrees_on_doubles() {
        let mut seen = [0; 11];
        for file in SMALL.map(grammar_file) {
            let rules = number(&file, 7) as usize;
            for (from, to) in (0..rules * rules).map(|both| (both / rules, both % rules)) {
                agrees_in_every_order(&file, from, to, &mut seen);
            }
        }
        for (_, file) in crate::files::full() {
            for (from, to) in [(0, 1), (0, 255), (100, 101), (90, 200), (254, 255), (255, 0)] {
                agrees_in_every_order(&file, from, to, &mut seen);
            }
        }
        assert!(seen[10] > 500 && seen[0] > 100, "{seen:?}");
    }

    /// One rule in the place of another, in every order of its daughters, and with its daughters reordered alone.
    fn agrees_in_every_order(file: &[u8], from: usize, to: usize, seen: &mut [u32; 11]) {
        let rule = record(file.as_chunks().0, from);
        for order in &ORDERS[..NUMBER_OF_ORDERS[rule[1] as usize]] {
            let double = reordered(rule, order);
            let mut not_renumbered = double;
            not_renumbered[11..WEIGHT].copy_from_slice(&rule[11..WEIGHT]);
            agrees(&with_record(file, to, &double), seen);
            agrees(&with_record(file, to, &not_renumbered), seen);
        }
    }

    /// The file with this record at rule r, another weight and a right check.
    fn with_record(file: &[u8], r: usize, record: &Record) -> Vec<u8> {
        let mut file = file.to_vec();
        let block: &mut Block = &mut file.as_chunks_mut().0[1 + r / RECORDS_IN_BLOCK];
        block[4 + RECORD * (r % RECORDS_IN_BLOCK)..][..RECORD].copy_from_slice(record);
        block[4 + RECORD * (r % RECORDS_IN_BLOCK) + WEIGHT] = r as u8;
        let sum = check(block);
        block[CHECK..].copy_from_slice(&sum.to_le_bytes());
        file
    }

    /// `seen` counts the refusals by their numbers, and at 0 what is accepted.
    fn agrees(file: &[u8], seen: &mut [u32; 11]) {
        let expected = reference::file::read(file).map(|grammar| grammar.rules.len() as u32);
        seen[expected.map_or_else(|refusal| refusal.number as usize, |_| 0)] += 1;
        assert_eq!(read(file), expected);
    }
}
