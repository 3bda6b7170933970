//! Grammars in writing, a rule a line, for tests and examples:
//!
//! ```text
//! S(xy) <- P(x,y)
//! P(a,c) <- A(a) A(c)
//! A <- 0
//! B <- empty
//! ```
//!
//! Categories and rules are numbered as they appear, the first category is the start, a variable is one letter, a word is its number.
//! A sentence in writing is its places in turn: 3 is word 3, 1-2 is word 1 or 2.

use crate::calls::Heading;
use crate::grammar::EMPTY_WORD;
use crate::record::{RECORD, WEIGHT};
use crate::sentence::{highest, lowest};
use crate::writer::write;

/// The places of a sentence, a single word as its number, any other place as lowest-highest.
pub fn places(sentence: &[u32]) -> String {
    let place = |&place: &u32| match (lowest(place), highest(place)) {
        (one, other) if one == other => one.to_string(),
        (lowest, highest) => format!("{lowest}-{highest}"),
    };
    sentence.iter().map(place).collect::<Vec<_>>().join(" ")
}

/// The grammar file of a text. A test that gives a wrong text stops.
pub fn grammar_file(text: &str) -> Vec<u8> {
    weighted_file(text, &[])
}

/// The grammar file of a text whose rules have these weights in turn; those past the last one have weight 0.
pub fn weighted_file(text: &str, weights: &[u8]) -> Vec<u8> {
    let (heading, mut records) = parts(text);
    put_weights(&mut records, weights.iter().copied());
    write(&heading, &records).expect("the text is a grammar")
}

/// Puts weights into records, in turn.
pub fn put_weights(records: &mut [u8], weights: impl Iterator<Item = u8>) {
    for (record, weight) in records.chunks_exact_mut(RECORD).zip(weights) {
        record[WEIGHT] = weight;
    }
}

/// The names of the categories of a text, in the order of their numbers.
pub fn category_names(text: &str) -> Vec<String> {
    let (categories, _, _) = rules_of(text);
    categories.names
}

/// The writer's input for a text, without weights.
pub fn parts(text: &str) -> (Heading, Vec<u8>) {
    let (categories, words, records) = rules_of(text);
    let mut dimensions = categories.dimensions;
    dimensions.resize(64, 0);
    let rules = (records.len() / 24) as u16;
    (Heading { categories: categories.names.len() as u8, start: 0, words, rules, dimensions }, records)
}

/// The categories of a text, how many words it has, and its rules as records.
fn rules_of(text: &str) -> (Categories, u16, Vec<u8>) {
    let mut categories = Categories { names: vec![], dimensions: vec![] };
    let mut words = 1;
    let mut records = Vec::new();
    for line in text.lines().filter(|line| !line.trim().is_empty()) {
        let (left, right) = line.split_once("<-").expect("a rule has an arrow");
        let (category, components) = categories.atom(left.trim());
        let mut record = [0; 24];
        record[0] = category;
        let right = right.trim();
        if right == "empty" || right.parse::<u16>().is_ok() {
            let word = right.parse().unwrap_or(EMPTY_WORD);
            if word != EMPTY_WORD {
                words = words.max(word + 1);
            }
            record[5..7].copy_from_slice(&word.to_le_bytes());
        } else {
            let daughters: Vec<(u8, Vec<String>)> = right.split_whitespace().map(|atom| categories.atom(atom)).collect();
            put_daughters(&mut record, &components, &daughters);
        }
        records.extend(record);
    }
    (categories, words, records)
}

struct Categories {
    names: Vec<String>,
    dimensions: Vec<u8>,
}

impl Categories {
    /// The category of an atom such as P(x,y), and the letters of its components.
    fn atom(&mut self, text: &str) -> (u8, Vec<String>) {
        let (name, inside) = match text.split_once('(') {
            Some((name, rest)) => (name, rest.strip_suffix(')').expect("an atom ends with a parenthesis")),
            None => (text, "x"),
        };
        let components: Vec<String> = inside.split(',').map(|letters| letters.to_string()).collect();
        let known = self.names.iter().position(|known| known == name);
        let category = known.unwrap_or_else(|| {
            self.names.push(name.to_string());
            self.dimensions.push(components.len() as u8);
            self.names.len() - 1
        });
        assert_eq!(self.dimensions[category] as usize, components.len(), "a category has one dimension");
        (category as u8, components)
    }
}

fn put_daughters(record: &mut [u8], components: &[String], daughters: &[(u8, Vec<String>)]) {
    record[1] = daughters.len() as u8;
    for (position, (category, _)) in daughters.iter().enumerate() {
        record[2 + position] = *category;
    }
    let mut at = 11;
    for (k, letters) in components.iter().enumerate() {
        record[7 + k] = letters.chars().count() as u8;
        for letter in letters.chars() {
            let variables =
                daughters.iter().enumerate().flat_map(|(d, (_, names))| names.iter().enumerate().map(move |(c, name)| (d, c, name)));
            let (daughter, component, _) =
                variables.into_iter().find(|(_, _, name)| **name == letter.to_string()).expect("a variable is a daughter's");
            record[at] = (4 * daughter + component) as u8;
            at += 1;
        }
    }
}
