//! Random grammars that the reader accepts: dimensions 1 to 4, empty words and components, 1 to 3 daughters, 1 to 256 rules, no two of them
//! equal in any order of their daughters, with weights and without. Some have every dimension from 1 to 4, and some rules with many empty
//! components.

use std::collections::HashSet;

use reference::file::read;
use reference::grammar::{Grammar, EMPTY_WORD};
use reference::notation::{parts, put_weights};
use reference::record::Record;
use reference::samples::SMALL;
use reference::writer::write;
use reference::Heading;

use crate::orders::least;
use crate::rng::Rng;

/// A grammar, as the writer takes it, as a file and as read.
pub struct Made {
    pub heading: Heading,
    pub records: Vec<u8>,
    pub file: Vec<u8>,
    pub grammar: Grammar,
}

impl Made {
    pub fn new(heading: Heading, records: Vec<u8>) -> Made {
        let file = write(&heading, &records).expect("the writer takes it");
        let grammar = read(&file).expect("the reader takes it");
        Made { heading, records, file, grammar }
    }

    pub fn of_text(text: &str) -> Made {
        let (heading, records) = parts(text);
        Made::new(heading, records)
    }

    /// The same grammar, with these weights of its rules.
    pub fn with_weights(&self, weight_of: impl FnMut(usize) -> u8) -> Made {
        let mut records = self.records.clone();
        put_weights(&mut records, (0..).map(weight_of));
        Made::new(self.heading.clone(), records)
    }
}

/// A random grammar: four of ten have no weights, one of ten has the highest on every rule.
pub fn random(rng: &mut Rng) -> Made {
    let made = without_weights(rng);
    match rng.below(10) {
        0..=3 => made,
        4 => made.with_weights(|_| 255),
        5 => {
            let one = rng.below(made.grammar.rules.len());
            let weight = rng.byte();
            made.with_weights(|rule| if rule == one { weight } else { 0 })
        }
        _ => made.with_weights(|_| rng.byte()),
    }
}

fn without_weights(rng: &mut Rng) -> Made {
    match rng.below(24) {
        21 => sized(rng, (5, 12), (10, 30), (1, 3), Shape::Mixed),
        22..=23 => sized(rng, (4, 8), (8, 24), (1, 3), Shape::Crowded),
        0 => Made::of_text(rng.pick(&SMALL)),
        1..=8 => sized(rng, (1, 4), (1, 10), (1, 3), Shape::Any),
        9..=12 => sized(rng, (2, 8), (6, 21), (1, 5), Shape::Any),
        13..=15 => sized(rng, (3, 10), (8, 24), (1, 2), Shape::Any),
        16..=17 => sized(rng, (4, 64), (19, 66), (1, 40), Shape::Any),
        18 => sized(rng, (20, 64), (60, 256), (1, 4096), Shape::Any),
        19 => sized(rng, (1, 3), (30, 120), (1, 3), Shape::Any),
        20 => {
            let rules = rng.pick(&[20, 21, 22, 41, 42, 43, 63, 64, 84, 105, 231, 252, 253, 255, 256]);
            sized(rng, (1, 64), (rules, rules), (1, 4096), Shape::Any)
        }
        _ => unreachable!("a number below 24"),
    }
}

/// What a random grammar has: any dimensions; categories of each dimension from 1 to 4; or these, and rules whose variables stand in one or two
/// of their components, so that the others are empty.
#[derive(Clone, Copy, PartialEq)]
enum Shape {
    Any,
    Mixed,
    Crowded,
}

/// A random grammar with numbers of categories, rules and words between these bounds.
fn sized(rng: &mut Rng, categories: (usize, usize), rules: (usize, usize), words: (usize, usize), shape: Shape) -> Made {
    let categories = rng.from_to(categories.0, categories.1);
    let rules = rng.from_to(rules.0, rules.1);
    let words = rng.from_to(words.0, words.1);
    let start = rng.below(categories);
    let row: &[u8] = rng.pick(&[&[1, 1, 1, 2][..], &[1, 2], &[1, 2, 3, 4], &[1, 4, 4], &[1]]);
    let mut dimensions: Vec<u8> = (0..categories).map(|_| rng.pick(row)).collect();
    dimensions[start] = 1;
    if shape != Shape::Any {
        for apart in 1..=3 {
            dimensions[(start + apart) % categories] = apart as u8 + 1;
        }
    }
    let crowded = shape == Shape::Crowded;
    let mut maker = Maker { dimensions, words, crowded, known: HashSet::new(), records: vec![] };
    let with_trees = maker.base_rules(rng, rules);
    maker.start_rules(rng, rules, start, &with_trees);
    for _ in 0..20 * rules {
        if maker.records.len() < rules {
            maker.any_rule(rng);
        }
    }
    if maker.records.is_empty() {
        maker.keep(lexical(start, 0));
    }
    rng.shuffle(&mut maker.records);
    let rules = maker.records.len() as u16;
    maker.dimensions.resize(64, 0);
    let heading = Heading { categories: categories as u8, start: start as u8, words: words as u16, rules, dimensions: maker.dimensions };
    Made::new(heading, maker.records.concat())
}

struct Maker {
    dimensions: Vec<u8>,
    words: usize,
    /// Most nonlexical rules have empty components.
    crowded: bool,
    /// The records so far, each in the least order of its daughters.
    known: HashSet<Record>,
    records: Vec<Record>,
}

impl Maker {
    /// Keeps the record unless it equals an earlier one in some order of its daughters.
    fn keep(&mut self, record: Record) {
        if self.known.insert(least(&record)) {
            self.records.push(record);
        }
    }

    /// For most categories a rule whose daughters have trees already, so that they have trees themselves; gives these categories.
    fn base_rules(&mut self, rng: &mut Rng, most: usize) -> Vec<usize> {
        let mut order: Vec<usize> = (0..self.dimensions.len()).collect();
        rng.shuffle(&mut order);
        order.sort_by_key(|&category| self.dimensions[category] != 1);
        let mut with_trees: Vec<usize> = Vec::new();
        for category in order {
            if self.records.len() == most || rng.chance(7) {
                continue;
            }
            if with_trees.is_empty() || self.dimensions[category] == 1 && rng.chance(70) {
                if self.dimensions[category] != 1 {
                    continue;
                }
                let word = self.word(rng);
                self.keep(lexical(category, word));
            } else {
                let count = rng.pick(&[1, 2, 2, 3]);
                let daughters: Vec<usize> = (0..count).map(|_| rng.pick(&with_trees)).collect();
                self.nonlexical(rng, category, &daughters);
            }
            with_trees.push(category);
        }
        with_trees
    }

    /// Some rules for the start, of daughters that have trees, those of high dimensions first.
    fn start_rules(&mut self, rng: &mut Rng, most: usize, start: usize, with_trees: &[usize]) {
        let highest = with_trees.iter().map(|&category| self.dimensions[category]).max().unwrap_or(0);
        let high: Vec<usize> = with_trees.iter().copied().filter(|&category| self.dimensions[category] == highest).collect();
        for _ in 0..rng.pick(&[0, 1, 2, 3]) {
            if self.records.len() == most || with_trees.is_empty() {
                return;
            }
            let from = if rng.chance(60) { &high } else { with_trees };
            let count = rng.pick(&[1, 2, 3]);
            let daughters: Vec<usize> = (0..count).map(|_| rng.pick(from)).collect();
            self.nonlexical(rng, start, &daughters);
        }
    }

    fn any_rule(&mut self, rng: &mut Rng) {
        let category = rng.below(self.dimensions.len());
        if self.dimensions[category] == 1 && rng.chance(50) {
            let word = self.word(rng);
            self.keep(lexical(category, word));
        } else {
            let count = rng.pick(&[1, 1, 2, 2, 2, 3, 3]);
            let daughters: Vec<usize> = (0..count).map(|_| rng.below(self.dimensions.len())).collect();
            self.nonlexical(rng, category, &daughters);
        }
    }

    fn nonlexical(&mut self, rng: &mut Rng, category: usize, daughters: &[usize]) {
        let components = self.dimensions[category] as usize;
        let used = if self.crowded && rng.chance(80) { rng.from_to(1, 2).min(components) } else { components };
        let record = cut(rng, &self.dimensions, category, daughters, used);
        self.keep(record);
    }

    fn word(&self, rng: &mut Rng) -> u16 {
        if rng.chance(15) {
            EMPTY_WORD
        } else {
            rng.below(self.words) as u16
        }
    }
}

/// The variables of the daughters in any order, cut into components anywhere.
pub fn nonlexical(rng: &mut Rng, dimensions: &[u8], category: usize, daughters: &[usize]) -> Record {
    cut(rng, dimensions, category, daughters, dimensions[category] as usize)
}

/// The variables of the daughters in any order, in so many of the components, which begin anywhere; the others are empty.
fn cut(rng: &mut Rng, dimensions: &[u8], category: usize, daughters: &[usize], used: usize) -> Record {
    let mut record = [0; 24];
    record[0] = category as u8;
    record[1] = daughters.len() as u8;
    let mut variables = Vec::new();
    for (position, &daughter) in daughters.iter().enumerate() {
        record[2 + position] = daughter as u8;
        variables.extend((0..dimensions[daughter]).map(|component| 4 * position as u8 + component));
    }
    rng.shuffle(&mut variables);
    record[11..11 + variables.len()].copy_from_slice(&variables);
    let components = dimensions[category] as usize;
    let first = rng.below(components);
    for _ in &variables {
        record[7 + (first + rng.below(used)) % components] += 1;
    }
    record
}

pub fn lexical(category: usize, word: u16) -> Record {
    let mut record = [0; 24];
    record[0] = category as u8;
    record[5..7].copy_from_slice(&word.to_le_bytes());
    record
}
