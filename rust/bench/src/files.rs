//! The files that the readers are measured on: full ones, 256 rules in 14 blocks, with 64 categories each.

use reference::record::{Record, RECORD};
use reference::writer::write;
use reference::Heading;

const RULES: usize = 256;
const CATEGORIES: usize = 64;

/// A name and a file each.
pub fn full() -> Vec<(&'static str, Vec<u8>)> {
    vec![("lexical", lexical()), ("mixed", mixed()), ("alike", alike()), ("six orders", six_orders())]
}

/// Lexical rules alone.
fn lexical() -> Vec<u8> {
    let dimensions = [1; CATEGORIES];
    file(&dimensions, |r| word(r % CATEGORIES, r / CATEGORIES))
}

/// Categories of dimensions 1 to 4 in turn, a lexical rule for each of dimension 1, and rules with three daughters.
fn mixed() -> Vec<u8> {
    let dimensions: [u8; CATEGORIES] = std::array::from_fn(|category| 1 + category as u8 % 4);
    file(&dimensions, |r| {
        let category = r % CATEGORIES;
        if r < CATEGORIES && dimensions[category] == 1 {
            return word(category, r);
        }
        let daughter = |factor: usize| ((factor * r + r / CATEGORIES) % CATEGORIES) as u8;
        nonlexical(&dimensions, category, [daughter(7), daughter(11), daughter(13)], 0)
    })
}

/// Rules with the same category, the same three daughters of dimension 4 and the same component lengths, which differ in the order of
/// their last six variables alone.
fn alike() -> Vec<u8> {
    let mut dimensions = [4; CATEGORIES];
    dimensions[0] = 1;
    file(&dimensions, |r| nonlexical(&dimensions, 1, [2, 3, 4], r))
}

/// Rules like these with three daughters of one category: whatever the order, the daughters agree, and the variables decide. No order makes two
/// of them equal: in all of them the first variable of daughter 0 comes before that of daughter 1, and this before that of daughter 2.
fn six_orders() -> Vec<u8> {
    let mut dimensions = [4; CATEGORIES];
    dimensions[0] = 1;
    file(&dimensions, |r| nonlexical(&dimensions, 1, [2, 2, 2], r))
}

fn file(dimensions: &[u8; CATEGORIES], record: impl Fn(usize) -> Record) -> Vec<u8> {
    let records: Vec<u8> = (0..RULES).flat_map(record).collect();
    let heading = Heading { categories: CATEGORIES as u8, start: 0, words: 4096, rules: RULES as u16, dimensions: dimensions.to_vec() };
    write(&heading, &records).expect("the writer takes it")
}

fn word(category: usize, word: usize) -> Record {
    let mut record = [0; RECORD];
    record[0] = category as u8;
    record[5..7].copy_from_slice(&(word as u16).to_le_bytes());
    record
}

/// The daughters' variables one after the other, the last six in their permutation of that number, in components of much the same length.
fn nonlexical(dimensions: &[u8; CATEGORIES], category: usize, daughters: [u8; 3], permutation: usize) -> Record {
    let mut variables: Vec<u8> = vec![];
    for (position, &daughter) in daughters.iter().enumerate() {
        variables.extend((0..dimensions[daughter as usize]).map(|component| 4 * position as u8 + component));
    }
    let tail = variables.len().saturating_sub(6);
    permute(&mut variables[tail..], permutation);
    let mut record = [0; RECORD];
    record[0] = category as u8;
    record[1] = 3;
    record[2..5].copy_from_slice(&daughters);
    let components = dimensions[category] as usize;
    for (k, length) in record[7..7 + components].iter_mut().enumerate() {
        *length = ((k + 1) * variables.len() / components - k * variables.len() / components) as u8;
    }
    record[11..11 + variables.len()].copy_from_slice(&variables);
    record
}

/// The permutation of that number, from 0: no two numbers below that of all permutations give the same.
fn permute(variables: &mut [u8], mut number: usize) {
    for i in 0..variables.len() {
        let choices = variables.len() - i;
        variables.swap(i, i + number % choices);
        number /= choices;
    }
}
