//! Damaged grammar files: aimed at one refusal or another, several at once, and random bytes; with checks made right again or not.

use reference::file::{check, BLOCK};
use reference::record::Record;

use crate::grammars::Made;
use crate::orders::{daughters, near_miss, orders_of, reordered, NEAR_MISSES};
use crate::rng::Rng;

/// The file with one to three pieces of damage.
pub fn damaged(rng: &mut Rng, made: &Made) -> Vec<u8> {
    let mut file = made.file.clone();
    for _ in 0..rng.pick(&[1, 1, 1, 2, 3]) {
        match rng.below(18) {
            0 => any_byte(rng, &mut file),
            1 => block_number_or_kind(rng, &mut file),
            2..=4 => heading(rng, made, &mut file),
            5 => record_count(rng, &mut file),
            6 => rest_of_last_block(rng, made, &mut file),
            7 => equal_records(rng, made, &mut file),
            8 | 9 => reordered_records(rng, made, &mut file),
            _ => {
                let r = rng.below(made.grammar.rules.len());
                let bytes = &mut file[at(r)..at(r) + 24];
                record(rng, made, bytes);
                if rng.chance(20) {
                    equal_records(rng, made, &mut file);
                }
            }
        }
    }
    if !rng.chance(8) {
        seal(&mut file);
    }
    if rng.chance(6) {
        let k = rng.below(file.len() / BLOCK);
        let byte = k * BLOCK + rng.pick(&[0, 2, 3, 17, 508, 509, 510, 511]);
        file[byte] ^= 1 << rng.below(8);
    }
    if rng.chance(10) {
        length(rng, &mut file);
    }
    file
}

/// Where rule r's record begins.
pub fn at(r: usize) -> usize {
    BLOCK * (1 + r / 21) + 4 + 24 * (r % 21)
}

/// Makes the checks of all whole blocks right.
pub fn seal(file: &mut [u8]) {
    for block in file.chunks_exact_mut(BLOCK) {
        let sum = check(block);
        block[508..].copy_from_slice(&sum.to_le_bytes());
    }
}

fn any_byte(rng: &mut Rng, file: &mut [u8]) {
    let i = rng.below(file.len());
    file[i] = if rng.chance(50) { file[i] ^ (1 << rng.below(8)) } else { rng.below(256) as u8 };
}

fn length(rng: &mut Rng, file: &mut Vec<u8>) {
    let whole = file.len();
    match rng.below(8) {
        0 => file.clear(),
        1 => file.truncate(whole - 1),
        2 => file.push(0),
        3 => file.truncate(rng.below(whole)),
        4 => file.truncate(whole - BLOCK),
        5 => file.resize(whole + BLOCK, 0),
        6 => file.extend_from_within(whole - BLOCK..),
        _ => file.resize(BLOCK * rng.from_to(1, 16), 0),
    }
}

fn block_number_or_kind(rng: &mut Rng, file: &mut [u8]) {
    let k = rng.below(file.len() / BLOCK);
    let i = BLOCK * k + rng.below(3);
    file[i] = rng.pick(&[0, 1, 2, 3, file[i].wrapping_add(1), 255]);
}

fn heading(rng: &mut Rng, made: &Made, file: &mut [u8]) {
    let categories = made.heading.categories;
    let some_category = rng.byte() % categories;
    let rules = made.heading.rules;
    match rng.below(10) {
        0 => file[3] = rng.pick(&[0, 65, 64, categories - 1, categories + 1, 255]),
        1 => file[4] = rng.pick(&[categories, 255, some_category, 64]),
        2 => file[5..7].copy_from_slice(&rng.pick(&[0u16, 1, 4096, 4097, 65_535]).to_le_bytes()),
        3 => file[7..9].copy_from_slice(&rng.pick(&[0, 257, 65_535, rules - 1, rules + 1, rules + 21, 256]).to_le_bytes()),
        4 => file[16 + rng.below(categories as usize)] = rng.pick(&[0, 5, 255, 1, 2, 3, 4]),
        5 => file[16 + rng.below(64)] = rng.pick(&[0, 1, 5]),
        6 => file[9 + rng.below(7)] = 1,
        7 => file[80 + rng.below(428)] = rng.pick(&[1, 255]),
        8 => file[rng.pick(&[9, 15, 79, 80, 507])] ^= 1,
        _ => file[3 + rng.below(13)] = rng.byte(),
    }
}

fn record_count(rng: &mut Rng, file: &mut [u8]) {
    let k = rng.below(file.len() / BLOCK);
    let i = BLOCK * k + 3;
    file[i] = rng.pick(&[0, 20, 21, 22, file[i].wrapping_add(1), file[i].wrapping_sub(1)]);
}

fn rest_of_last_block(rng: &mut Rng, made: &Made, file: &mut [u8]) {
    let last = file.len() - BLOCK;
    let held = (made.grammar.rules.len() - 1) % 21 + 1;
    let rest = last + 4 + 24 * held..last + 508;
    if !rest.is_empty() {
        let inside = rng.from_to(rest.start, rest.end - 1);
        let i = rng.pick(&[rest.start, rest.end - 1, inside]);
        file[i] = 1 + rng.below(255) as u8;
    }
}

/// Damages one record of 24 bytes: any field, with values next to the right ones.
pub fn record(rng: &mut Rng, made: &Made, bytes: &mut [u8]) {
    let categories = made.heading.categories;
    let some_category = rng.byte() % categories;
    match rng.below(12) {
        0 => bytes[0] = rng.pick(&[categories, 255, some_category]),
        1 => bytes[1] = rng.pick(&[0, 1, 2, 3, 4, 255]),
        2 => bytes[2 + rng.below(3)] = rng.pick(&[0, categories, 255, some_category]),
        3 => {
            let word = rng.pick(&[made.heading.words, made.heading.words - 1, 65_534, 65_535, 0]);
            bytes[5..7].copy_from_slice(&word.to_le_bytes());
        }
        4 => bytes[7 + rng.below(4)] = rng.pick(&[0, 1, 2, 12, 255]),
        5 => {
            // one variable moves to another component
            let (from, to) = (7 + rng.below(4), 7 + rng.below(4));
            if bytes[from] > 0 {
                bytes[from] -= 1;
                bytes[to] += 1;
            }
        }
        6 => bytes[11 + rng.below(12)] = rng.below(13) as u8,
        7 => bytes.swap(11 + rng.below(12), 11 + rng.below(12)),
        8 => bytes[11 + rng.below(12)] = bytes[11 + rng.below(12)],
        9 => bytes[rng.pick(&[22, 23])] = 1 + rng.below(255) as u8,
        10 => bytes[rng.below(24)] = rng.byte(),
        _ => bytes[rng.below(24)] = 0,
    }
}

fn equal_records(rng: &mut Rng, made: &Made, file: &mut [u8]) {
    let (a, b) = (rng.below(made.grammar.rules.len()), rng.below(made.grammar.rules.len()));
    double(rng, file, at(a), at(b));
}

/// A rule's record over another's, or its own, with its daughters in any order.
fn reordered_records(rng: &mut Rng, made: &Made, file: &mut [u8]) {
    let (a, b) = (branching(rng, made), rng.below(made.grammar.rules.len()));
    reordered_double(rng, made, file, at(a), at(b));
}

/// A rule with two or three daughters, where there is one.
pub fn branching(rng: &mut Rng, made: &Made) -> usize {
    let rules = made.grammar.rules.len();
    let branching: Vec<usize> = (0..rules).filter(|r| made.records[24 * r + 1] > 1).collect();
    if branching.is_empty() {
        rng.below(rules)
    } else {
        rng.pick(&branching)
    }
}

/// Puts the record at one place over the record at another, with its daughters in any order, half the time with another weight, and now
/// and then as a near miss.
pub fn reordered_double(rng: &mut Rng, made: &Made, bytes: &mut [u8], from: usize, to: usize) {
    let record: Record = bytes[from..from + 24].try_into().expect("a record has 24 bytes");
    let order = rng.pick(&orders_of(daughters(&record)));
    let mut other = reordered(&record, order);
    if rng.chance(30) {
        let dimensions = &made.heading.dimensions[..made.heading.categories as usize];
        other = near_miss(rng.below(NEAR_MISSES), dimensions, &record, order);
    }
    if rng.chance(50) {
        other[23] = rng.byte();
    }
    bytes[to..to + 24].copy_from_slice(&other);
}

/// Puts the record at one place over the record at another, half the time with another weight.
pub fn double(rng: &mut Rng, bytes: &mut [u8], from: usize, to: usize) {
    bytes.copy_within(from..from + 24, to);
    if rng.chance(50) {
        bytes[to + 23] = rng.byte();
    }
}
