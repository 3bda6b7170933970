//! Rules with their daughters in another order (document 02, paper 4): doubles, near misses, and the fixed inputs with them.

use reference::notation::parts;
use reference::record::{Record, RECORD, WEIGHT};
use reference::writer::file_of;
use reference::Heading;

use crate::compare::{Done, Pair};
use crate::fixed::{every_call, order};
use crate::grammars::{lexical, nonlexical, Made};
use crate::rng::Rng;
use crate::tally::Call;

static AS_THEY_STAND: [usize; 3] = [0, 1, 2];

/// The other orders of two and of three daughters: for each new position the old position of the daughter that stands there.
pub static ORDERS: [&[usize]; 6] = [&[1, 0], &[0, 2, 1], &[1, 0, 2], &[1, 2, 0], &[2, 0, 1], &[2, 1, 0]];

/// Every order of so many daughters, at most three, the one they stand in first.
pub fn orders_of(daughters: usize) -> Vec<&'static [usize]> {
    let others = ORDERS.iter().copied().filter(|order| order.len() == daughters);
    [&AS_THEY_STAND[..daughters]].into_iter().chain(others).collect()
}

/// The number of daughters, as far as a rule has so many.
pub fn daughters(record: &Record) -> usize {
    record[1].min(3) as usize
}

/// The record with its daughters in this order and its variables renumbered to match; a byte that is no variable of theirs stays.
pub fn reordered(record: &Record, order: &[usize]) -> Record {
    let mut reordered = *record;
    for (new, &old) in order.iter().enumerate() {
        reordered[2 + new] = record[2 + old];
    }
    let variables: usize = record[7..11].iter().map(|&length| length as usize).sum();
    for byte in &mut reordered[11..11 + variables.min(12)] {
        if let Some(new) = order.iter().position(|&old| old == (*byte / 4) as usize) {
            *byte = 4 * new as u8 + *byte % 4;
        }
    }
    reordered
}

/// One record for all those that are equal in some order of their daughters: the least.
pub fn least(record: &Record) -> Record {
    orders_of(daughters(record)).into_iter().map(|order| reordered(record, order)).min().expect("one order at least")
}

/// Which of the orders makes the last of these records equal to another one, weight aside.
pub fn order_of_double(records: &[Record]) -> Option<usize> {
    let (last, earlier) = records.split_last()?;
    let is_among = |form: Record| earlier.iter().any(|record| record[..WEIGHT] == form[..WEIGHT]);
    ORDERS.iter().position(|order| order.len() == daughters(last) && is_among(reordered(last, order)))
}

pub const NEAR_MISSES: usize = 7;

/// The record in that order with one thing changed, by which it is no double of what it was, or happens to be one after all, or is no rule.
pub fn near_miss(number: usize, dimensions: &[u8], record: &Record, order: &[usize]) -> Record {
    let mut other = reordered(record, order);
    match number {
        // the daughters reordered alone, and the variables renumbered alone
        0 => other[11..WEIGHT].copy_from_slice(&record[11..WEIGHT]),
        1 => other[2..5].copy_from_slice(&record[2..5]),
        2 => exchange_components(&mut other),
        3 => exchange_last_variables(&mut other),
        4 => other[2] = like(dimensions, other[2]),
        5 => other[0] = like(dimensions, other[0]),
        // one variable goes over to the component before
        _ => {
            if other[8] > 0 {
                other[7] = other[7].wrapping_add(1);
                other[8] -= 1;
            }
        }
    }
    other
}

/// The rule's own first two components change places.
fn exchange_components(record: &mut Record) {
    let (first, second) = (record[7] as usize, record[8] as usize);
    if first + second <= 12 {
        record[11..11 + first + second].rotate_left(first);
        record.swap(7, 8);
    }
}

fn exchange_last_variables(record: &mut Record) {
    let variables: usize = record[7..11].iter().map(|&length| length as usize).sum();
    if (2..=12).contains(&variables) {
        record.swap(11 + variables - 2, 11 + variables - 1);
    }
}

/// The next category of the same dimension; the same one where there is no other.
fn like(dimensions: &[u8], category: u8) -> u8 {
    let n = dimensions.len();
    let others = (1..n).map(|k| (category as usize + k) % n);
    let alike = |other: &usize| dimensions.get(category as usize) == Some(&dimensions[*other]);
    others.into_iter().find(alike).map_or(category, |other| other as u8)
}

pub fn fixed(pair: &mut Pair) -> Done {
    for (number, (category, daughters)) in shapes().into_iter().enumerate() {
        let rule = nonlexical(&mut Rng::new(4, number as u64), &DIMENSIONS, category, &daughters);
        for order in orders_of(daughters.len()) {
            doubles(pair, &rule, &reordered(&rule, order))?;
            near_misses(pair, &rule, order)?;
        }
    }
    bytes_of_doubles(pair)?;
    among_256(pair)
}

/// Category 0, the start, has dimension 1. Three categories of each dimension come after it.
const DIMENSIONS: [u8; 13] = [1, 1, 1, 1, 2, 2, 2, 3, 3, 3, 4, 4, 4];

/// Which daughters are alike: the same number stands for the same category.
const PATTERNS: [&[usize]; 8] = [&[0], &[0, 0], &[0, 1], &[0, 0, 0], &[0, 0, 1], &[0, 1, 0], &[0, 1, 1], &[0, 1, 2]];

/// The categories that each number of a pattern goes through: every dimension, and the first also category 0.
const CHOICES: [&[usize]; 3] = [&[0, 1, 4, 7, 10], &[2, 5, 8, 11], &[3, 6, 9, 12]];

/// A rule's category, one of each dimension, and its daughters in every pattern and of every choice of categories.
fn shapes() -> Vec<(usize, Vec<usize>)> {
    let mut shapes = Vec::new();
    for pattern in PATTERNS {
        let numbers = 1 + pattern.iter().max().expect("a daughter at least");
        let chosen = CHOICES[..numbers].iter().fold(vec![vec![]], |chosen, choices| each_with(&chosen, choices));
        for categories in &chosen {
            let daughters: Vec<usize> = pattern.iter().map(|&number| categories[number]).collect();
            shapes.extend([0, 4, 7, 10].map(|category| (category, daughters.clone())));
        }
    }
    shapes
}

/// Each list with each choice at its end.
fn each_with(lists: &[Vec<usize>], choices: &[usize]) -> Vec<Vec<usize>> {
    lists.iter().flat_map(|list| choices.iter().map(|&choice| [&list[..], &[choice]].concat())).collect()
}

fn heading() -> Heading {
    let dimensions = [&DIMENSIONS[..], &[0; 64 - DIMENSIONS.len()]].concat();
    Heading { categories: DIMENSIONS.len() as u8, start: 0, words: 4, rules: 4, dimensions }
}

/// Four rules: two at these places and with these weights, and a word at each other place.
fn four_rules(rules: [&Record; 2], places: [usize; 2], weights: [u8; 2]) -> Vec<u8> {
    let mut records: Vec<Record> = (0..4).map(|word| lexical(1, word)).collect();
    for ((rule, place), weight) in rules.into_iter().zip(places).zip(weights) {
        records[place] = *rule;
        records[place][WEIGHT] = weight;
    }
    records.concat()
}

fn read_and_write(pair: &mut Pair, heading: &Heading, records: &[u8]) -> Done {
    let file = file_of(heading, records);
    pair.read_grammar(&file)?;
    pair.write_grammar(heading, records, file.len())
}

/// Two rules at different places among four, with the same weights and with others.
fn doubles(pair: &mut Pair, rule: &Record, other: &Record) -> Done {
    for (places, weights) in [([0, 1], [0, 0]), ([0, 3], [0, 255]), ([3, 1], [7, 8]), ([2, 3], [200, 200])] {
        read_and_write(pair, &heading(), &four_rules([rule, other], places, weights))?;
    }
    Ok(())
}

/// A rule and each near miss of its double in this order.
fn near_misses(pair: &mut Pair, rule: &Record, order: &[usize]) -> Done {
    let before = pair.tally.accepted(Call::ReadGrammar);
    for number in 0..NEAR_MISSES {
        let other = near_miss(number, &DIMENSIONS, rule, order);
        read_and_write(pair, &heading(), &four_rules([rule, &other], [1, 2], [0, number as u8]))?;
    }
    pair.tally.near_misses += pair.tally.accepted(Call::ReadGrammar) - before;
    Ok(())
}

/// Every byte of a rule, of its double and of the rules around them changed, so that 10 meets the tests before it and after it.
fn bytes_of_doubles(pair: &mut Pair) -> Done {
    for text in [
        "S(xy) <- S(x) S(y)\nS <- 0\nS(yx) <- S(x) S(y)\nS <- 1",
        "S <- 0\nS(wyx) <- S(x) P(y,w)\nS(wyx) <- P(y,w) S(x)\nP(x,y) <- S(y) S(x)",
        "S <- 0\nP(ac,db) <- P(a,b) S(c) S(d)\nS <- 1\nP(ac,db) <- S(d) P(a,b) S(c)",
        "S(lgajbkcidhef) <- Q(a,b,c,d) Q(e,f,g,h) Q(i,j,k,l)\nS(lgajbkcidhef) <- Q(i,j,k,l) Q(a,b,c,d) Q(e,f,g,h)\nS <- 0",
    ] {
        let (heading, records) = parts(text);
        every_call(pair, &file_of(&heading, &records))?;
        for i in 0..records.len() {
            for byte in [0, 1, 2, 3, 4, 5, 8, 9, 10, 255] {
                let mut changed = records.clone();
                changed[i] = byte;
                read_and_write(pair, &heading, &changed)?;
            }
        }
    }
    Ok(())
}

/// 256 rules with the same daughters that differ in their variables alone, no two of them doubles; and some replaced by an earlier one with
/// its daughters in every order.
fn among_256(pair: &mut Pair) -> Done {
    for (first, right) in [("ghi", "Q(g,a,b) Q(h,c,d) Q(i,e,f)"), ("gh", "Q(a,b,c,g) Q(d,e,f,h)"), ("", "P(a,b) Q(c,d,e,f)")] {
        let line = |number: usize| format!("S({first}{}) <- {right}\n", order(number));
        let made = Made::of_text(&(0..256).map(line).collect::<String>());
        read_and_write(pair, &made.heading, &made.records)?;
        for later in [1, 2, 20, 21, 42, 127, 200, 254, 255] {
            for earlier in [0, later / 2, later - 1] {
                replaced(pair, &made, earlier, later)?;
            }
        }
    }
    Ok(())
}

/// The later rule replaced by the earlier one with its daughters in every order.
fn replaced(pair: &mut Pair, made: &Made, earlier: usize, later: usize) -> Done {
    let rule: &Record = made.records[RECORD * earlier..].first_chunk().expect("a record has 24 bytes");
    for order in orders_of(daughters(rule)) {
        let mut records = made.records.clone();
        records[RECORD * later..][..RECORD].copy_from_slice(&reordered(rule, order));
        read_and_write(pair, &made.heading, &records)?;
    }
    Ok(())
}

#[cfg(test)]
mod tests {
    use super::*;

    /// A rule in writing has the same letters in every order of its daughters, and the record of each order is one of the reordered ones.
    #[test]
    fn reordered_as_in_writing() {
        let daughters = ["A(a)", "B(b,c)", "C(d,e,f)"];
        let record = |order: &[usize]| -> Record {
            let right: Vec<&str> = order.iter().map(|&d| daughters[d]).collect();
            // the categories in the same numbering whatever the order
            let text = format!("P(eac,fdb) <- A(a) B(b,c) C(d,e,f)\nP(eac,fdb) <- {}", right.join(" "));
            *parts(&text).1[RECORD..].first_chunk().unwrap()
        };
        let rule = record(&AS_THEY_STAND);
        for order in orders_of(3) {
            assert_eq!(reordered(&rule, order), record(order));
            assert_eq!(least(&record(order)), least(&rule));
        }
        assert_eq!(orders_of(3).into_iter().map(|order| reordered(&rule, order)).filter(|other| *other == rule).count(), 1);
    }

    /// The order found is that of the later rule's daughters that gives the earlier rule.
    #[test]
    fn the_order_of_a_double() {
        let rule = nonlexical(&mut Rng::new(1, 1), &DIMENSIONS, 0, &[4, 4, 4]);
        for (number, order) in ORDERS.iter().enumerate().filter(|(_, order)| order.len() == 3) {
            let back: Vec<usize> = (0..3).map(|new| order.iter().position(|&old| old == new).unwrap()).collect();
            assert_eq!(order_of_double(&[rule, reordered(&rule, &back)]), Some(number));
        }
        assert_eq!(order_of_double(&[rule, rule]), None);
        assert_eq!(order_of_double(&[rule]), None);
    }

    /// Five lists of one daughter, 25 of two and 145 of three, each for a category of each dimension.
    #[test]
    fn every_shape() {
        assert_eq!([1, 2, 3].map(|count| shapes().iter().filter(|(_, daughters)| daughters.len() == count).count()), [20, 100, 580]);
    }
}
