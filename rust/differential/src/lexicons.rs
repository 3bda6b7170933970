//! Lexicons of features (document 02, paper 6): random ones, and damaged ones.

use reference::file::BLOCK;
use reference::grammar::EMPTY_WORD;
use reference::lexicon::ENTRY;
use reference::lexicon_notation::WrittenLexicon;
use reference::made::make;
use reference::samples::{full_lexicon, KNOWS, LEXICONS, QUESTION};

use crate::compare::{Done, Pair};
use crate::minimalist;
use crate::rng::Rng;

/// The longest file has 14 blocks.
pub const ROOM: usize = 14 * BLOCK;

/// What the call takes beside its output.
#[derive(Clone)]
pub struct Given {
    pub lexicon: Vec<u8>,
    pub words: u32,
    pub start: u32,
}

impl Given {
    pub fn of_text(text: &str, start: &str) -> Given {
        let written = WrittenLexicon::new(text);
        Given { words: written.word_count(), start: written.category(start), lexicon: written.bytes }
    }

    /// These rows of features, all with word 0, and the wanted category 1.
    pub fn of_rows(rows: &[&[u8]]) -> Given {
        Given { lexicon: rows.iter().flat_map(|row| entry(0, row)).collect(), words: 1, start: 1 }
    }

    /// The file that the reference makes, unless it refuses.
    pub fn file(&self) -> Option<Vec<u8>> {
        make(&self.lexicon, self.words, self.start).ok()
    }

    fn entries(&self) -> usize {
        self.lexicon.len() / ENTRY
    }
}

pub fn entry(word: u16, row: &[u8]) -> [u8; ENTRY] {
    let mut entry = [0; ENTRY];
    entry[..2].copy_from_slice(&word.to_le_bytes());
    entry[2..2 + row.len()].copy_from_slice(row);
    entry
}

/// A random lexicon, most of them small enough to be made: entries that fit each other, and any features.
fn random(rng: &mut Rng) -> Given {
    match rng.below(50) {
        0..=6 => Given::of_text(rng.pick(&LEXICONS), "c"),
        7 | 8 => Given::of_text(rng.pick(&[KNOWS, QUESTION]), "C"),
        9..=29 => {
            let entries = rng.from_to(1, 6);
            fitting(rng, entries, 3)
        }
        30..=38 => {
            let entries = rng.from_to(4, 12);
            fitting(rng, entries, 4)
        }
        39..=41 => {
            let entries = rng.pick(&[10, 16, 24, 31, 32, 33]);
            fitting(rng, entries, 15)
        }
        42 | 43 => words_alone(rng),
        44..=46 => any_features(rng),
        47 => grown(rng),
        _ => around_the_limits(rng),
    }
}

/// So many entries with so many categories at most, which select, license and move as they could in a sentence.
fn fitting(rng: &mut Rng, entries: usize, categories: usize) -> Given {
    let kinds = Kinds::random(rng, categories);
    let few = rng.from_to(1, 4);
    let words = rng.pick(&[few, few, few, few, 10 * few, 4096]) as u32;
    let mut given = Given { lexicon: vec![], words, start: kinds.category(rng) as u32 };
    while given.entries() < entries {
        // the first entries have no selectors, so that there is something to select
        let row = if given.entries() < 2 { kinds.base(rng) } else { kinds.row(rng) };
        add(rng, &mut given, &row);
    }
    given
}

/// About 32 entries with one feature each.
fn words_alone(rng: &mut Rng) -> Given {
    let entries = rng.pick(&[30, 31, 32, 32, 33, 33, 34]);
    Given { lexicon: (0..entries).flat_map(|word| entry(word, &[1 + word as u8 / 20])).collect(), words: 40, start: rng.pick(&[1, 2]) }
}

/// Adds an entry with these features and any word. If there is one already, mostly, the lexicon gets one more word in place of it.
fn add(rng: &mut Rng, given: &mut Given, row: &[u8]) {
    let word = if rng.chance(20) { EMPTY_WORD } else { rng.below(given.words as usize) as u16 };
    let entry = entry(word, row);
    if rng.chance(1) || !given.lexicon.chunks(ENTRY).any(|known| known == entry) {
        given.lexicon.extend(entry);
    } else {
        given.words = (given.words + 1).min(4096);
    }
}

/// The first category of the entries, and how many categories and licensees they have.
struct Kinds {
    first: usize,
    categories: usize,
    licensees: usize,
}

impl Kinds {
    fn random(rng: &mut Rng, categories: usize) -> Kinds {
        let categories = rng.from_to(1, categories);
        // from 1 on, or up to 15
        Kinds { first: rng.pick(&[1, 1, 16 - categories]), categories, licensees: rng.below(4) }
    }

    fn category(&self, rng: &mut Rng) -> u8 {
        (self.first + rng.below(self.categories)) as u8
    }

    /// A category, and licensees after it.
    fn base(&self, rng: &mut Rng) -> Vec<u8> {
        let mut row = vec![self.category(rng)];
        if self.licensees > 0 && rng.chance(40) {
            row.extend((0..rng.pick(&[1, 1, 1, 2])).map(|_| 49 + rng.below(self.licensees) as u8));
        }
        row
    }

    /// Selectors and licensors before that.
    fn row(&self, rng: &mut Rng) -> Vec<u8> {
        let mut row: Vec<u8> = (0..rng.pick(&[0, 1, 1, 1, 2, 2, 3])).map(|_| 16 + self.category(rng)).collect();
        if self.licensees > 0 && rng.chance(50) {
            row.extend((0..rng.pick(&[1, 1, 2])).map(|_| 33 + rng.below(self.licensees) as u8));
        }
        if rng.chance(10) {
            rng.shuffle(&mut row);
        }
        if rng.chance(95) {
            row.extend(self.base(rng));
        }
        if row.is_empty() || rng.chance(3) {
            row.push(feature(rng));
        }
        row.truncate(6);
        row
    }
}

/// Any feature.
fn feature(rng: &mut Rng) -> u8 {
    match rng.below(4) {
        0 => rng.from_to(1, 15) as u8,
        1 => rng.from_to(17, 31) as u8,
        2 => rng.from_to(33, 35) as u8,
        _ => rng.from_to(49, 51) as u8,
    }
}

fn any_features(rng: &mut Rng) -> Given {
    let mut given = Given { lexicon: vec![], words: rng.from_to(1, 5) as u32, start: rng.from_to(1, 15) as u32 };
    for _ in 0..rng.from_to(1, 32) {
        let row: Vec<u8> = (0..rng.from_to(1, 6)).map(|_| feature(rng)).collect();
        add(rng, &mut given, &row);
    }
    if rng.chance(50) {
        let row = [given.start as u8];
        add(rng, &mut given, &row);
    }
    given
}

/// Entries added until there are too many categories or rules, or 32 entries: that lexicon, or the one before it.
fn grown(rng: &mut Rng) -> Given {
    let kinds = Kinds { first: 1, categories: rng.from_to(1, 3), licensees: rng.from_to(1, 3) };
    let mut given = Given { lexicon: entry(0, &[1]).to_vec(), words: 40, start: 1 };
    loop {
        let before = given.clone();
        let row = kinds.row(rng);
        given.lexicon.extend(entry(given.entries() as u16, &row));
        if given.file().is_none() || given.entries() == 32 {
            return if rng.chance(50) { given } else { before };
        }
    }
}

/// As `full_lexicon`.
pub fn full(words: usize, others: usize) -> Given {
    Given { lexicon: full_lexicon(words, others), words: 40, start: 1 }
}

/// 64 categories and 256 rules, or one more or less, the entries in any order, now and then with one feature more or less.
fn around_the_limits(rng: &mut Rng) -> Given {
    let (words, others) = rng.pick(&[(17, 3), (17, 3), (18, 3), (18, 3), (16, 4), (16, 4), (19, 1), (20, 0), (21, 0)]);
    let mut given = full(words, others);
    let mut entries: Vec<Vec<u8>> = given.lexicon.chunks(ENTRY).map(|entry| entry.to_vec()).collect();
    rng.shuffle(&mut entries);
    if rng.chance(20) {
        let i = rng.below(entries.len());
        let end = entries[i][2..].iter().position(|&byte| byte == 0).map_or(ENTRY, |features| 2 + features);
        match rng.below(2) {
            0 if end < ENTRY => entries[i][end] = feature(rng),
            _ if end > 3 => entries[i][end - 1] = 0,
            _ => {}
        }
    }
    given.lexicon = entries.concat();
    given
}

/// The lexicon, the word count or the start category with one to three changes.
fn damaged(rng: &mut Rng, given: &Given) -> Given {
    let mut damaged = given.clone();
    for _ in 0..rng.pick(&[1, 1, 1, 2, 3]) {
        let at = ENTRY * rng.below(damaged.entries().max(1));
        if damaged.lexicon.len() < at + ENTRY {
            break;
        }
        match rng.below(11) {
            0 => damaged.words = rng.pick(&[0, 1, 4096, 4097, damaged.words - damaged.words.min(1), 65_536 + damaged.words, u32::MAX]),
            1 => damaged.start = rng.pick(&[0, 1, 15, 16, 17, 256 + damaged.start, 65_536 + damaged.start, u32::MAX]),
            2 => {
                let words = damaged.words as u16;
                let word = rng.pick(&[words.wrapping_sub(1), words, words.wrapping_add(1), 65_534, 65_535, 4096]);
                damaged.lexicon[at..at + 2].copy_from_slice(&word.to_le_bytes());
            }
            3 | 4 => damaged.lexicon[at + 2 + rng.below(6)] = rng.pick(&[0, 1, 15, 16, 17, 31, 32, 33, 35, 36, 48, 49, 51, 52, 255]),
            5 => damaged.lexicon[at + 2 + rng.below(6)] = rng.byte(),
            6 => {
                let length = damaged.lexicon.len();
                damaged.lexicon.resize(rng.pick(&[0, 1, 7, length - 1, length + 1, length + 8, 8 * 33, 8 * 32]), 0);
            }
            7 => {
                let to = ENTRY * rng.below(damaged.entries());
                damaged.lexicon.copy_within(at..at + ENTRY, to);
            }
            8 | 9 => {
                // once more, and now and then with another byte at the end
                let mut again = damaged.lexicon[at..at + ENTRY].to_vec();
                if rng.chance(40) {
                    again[7] = feature(rng);
                }
                let to = ENTRY * rng.below(damaged.entries() + 1);
                damaged.lexicon.splice(to..to, again);
            }
            _ => damaged.start = rng.from_to(1, 15) as u32,
        }
    }
    damaged
}

/// A random lexicon, what it counts, and damaged ones.
pub fn random_calls(pair: &mut Pair, rng: &mut Rng) -> Done {
    let given = random(rng);
    let length = given.file().map_or(7 * BLOCK, |file| file.len());
    pair.make_grammar(&given, length)?;
    // a lexicon of many rules takes the reference long
    let times = if length > 6 * BLOCK { 1 } else { 6 };
    for _ in 0..times {
        let out = rng.pick(&[0, 1023, 1024, length - 1, length - 1, length, length + 1, length + 600, ROOM]);
        if rng.chance(20) {
            pair.make_grammar(&given, out)?;
        } else {
            pair.make_grammar(&damaged(rng, &given), out)?;
        }
    }
    minimalist::random_counts(pair, rng, &given)
}

#[cfg(test)]
mod tests {
    use super::*;
    use reference::file::read;
    use reference::lexicon::read_lexicon;
    use reference::made::named_grammar;

    /// Half of the random lexicons are made at least, and the others are mostly refused with 31.
    #[test]
    fn most_are_made() {
        let (mut made, mut refused) = (0, 0);
        for case in 0..500 {
            let given = random(&mut Rng::new(3, case));
            match make(&given.lexicon, given.words, given.start) {
                Ok(file) => made += read(&file).is_ok() as u32,
                Err(refusal) => refused += (refusal.number == 31) as u32,
            }
        }
        assert!(made > 250 && refused > 50, "{made} {refused}");
    }

    #[test]
    fn at_the_limits() {
        let size = |given: Given| {
            let lexicon = read_lexicon(&given.lexicon, given.words, given.start).unwrap();
            named_grammar(&lexicon).map(|grammar| (grammar.categories.len(), grammar.rules.len()))
        };
        assert_eq!(size(full(17, 3)), Ok((64, 256)));
        assert!(size(full(18, 3)).is_err() && size(full(16, 4)).is_err());
    }
}
