//! The grammar of a lexicon in plain Rust: refusals 30, 10, 31 and 23 in their order, and the file. Nothing is allocated.

use reference::file::{BLOCK, RECORDS_IN_BLOCK};
use reference::grammar::EMPTY_WORD;
use reference::lexicon::ENTRY;
use reference::record::{Record, RECORD};
use reference::Refusal;

use crate::reader::check;

/// All but the new start, which has number 0.
const MOST_TUPLES: usize = 63;
const MOST_RULES: usize = 256;

/// Up to six features, the first in the lowest byte.
type Row = u64;

fn first(row: Row) -> u8 {
    row as u8
}

fn is_licensee(byte: u8) -> bool {
    (49..=51).contains(&byte)
}

/// A category: the rows of its chains, the head's first, and 0 where it has no more.
#[derive(Clone, Copy, PartialEq, Eq)]
struct Tuple {
    lexical: bool,
    rows: [Row; 4],
}

impl Tuple {
    fn chains(&self) -> usize {
        1 + self.moving().len()
    }

    fn moving(&self) -> &[Row] {
        let moving = self.rows[1..].iter().position(|&row| row == 0).unwrap_or(3);
        &self.rows[1..1 + moving]
    }
}

/// The length of the file at the front of the output, or the first refusal.
pub fn make(lexicon: &[u8], words: u32, start: u32, out: &mut [u8]) -> Result<u32, Refusal> {
    let (entries, rest) = lexicon.as_chunks::<ENTRY>();
    let in_range = (1..=32).contains(&entries.len()) && (1..=4096).contains(&words) && (1..=15).contains(&start);
    if !rest.is_empty() || !in_range || !entries.iter().all(|entry| is_entry(entry, words)) {
        return Err(Refusal::grammar(30, 0));
    }
    if let Some(later) = (1..entries.len()).find(|&later| entries[..later].contains(&entries[later])) {
        return Err(Refusal::grammar(10, later));
    }
    let mut maker =
        Maker { tuples: [Tuple { lexical: false, rows: [0; 4] }; MOST_TUPLES], number: 0, records: [[0; RECORD]; MOST_RULES], rules: 0 };
    if maker.fill(entries, start as Row).is_none() {
        return Err(Refusal::grammar(31, 0));
    }
    let length = BLOCK * (1 + maker.rules.div_ceil(RECORDS_IN_BLOCK));
    if out.len() < length {
        return Err(Refusal::desk(23));
    }
    maker.write(words as u16, &mut out[..length]);
    Ok(length as u32)
}

fn is_entry(entry: &[u8; ENTRY], words: u32) -> bool {
    let word = word(entry);
    let features = &entry[2..];
    let number = features.iter().position(|&byte| byte == 0).unwrap_or(6);
    let is_feature = |byte: &u8| matches!(byte, 1..=15 | 17..=31 | 33..=35 | 49..=51);
    (word == EMPTY_WORD || (word as u32) < words)
        && number > 0
        && features[..number].iter().all(is_feature)
        && features[number..].iter().all(|&byte| byte == 0)
}

fn word(entry: &[u8; ENTRY]) -> u16 {
    u16::from_le_bytes([entry[0], entry[1]])
}

struct Maker {
    tuples: [Tuple; MOST_TUPLES],
    number: usize,
    records: [Record; MOST_RULES],
    rules: usize,
}

impl Maker {
    /// All categories and rules, or nothing where they are too many or there is no start rule. Each two categories are looked at once, as
    /// the later of the two is reached.
    fn fill(&mut self, entries: &[[u8; ENTRY]], start: Row) -> Option<()> {
        for entry in entries {
            let category = self.category(Tuple { lexical: true, rows: [Row::from_le_bytes(*entry) >> 16, 0, 0, 0] })?;
            let record = self.record(category)?;
            record[5..7].copy_from_slice(&entry[..2]);
        }
        let mut later = 0;
        while later < self.number {
            for earlier in 0..later {
                self.merge(earlier, later)?;
                self.merge(later, earlier)?;
            }
            self.move_once(later)?;
            later += 1;
        }
        let before = self.rules;
        for tuple in 0..self.number {
            if self.tuples[tuple].rows == [start, 0, 0, 0] {
                let record = self.record(0)?;
                (record[1], record[2], record[7]) = (1, 1 + tuple as u8, 1);
            }
        }
        (self.rules > before).then_some(())
    }

    /// The number of this category, which is now one of the grammar's.
    fn category(&mut self, tuple: Tuple) -> Option<u8> {
        let at = self.tuples[..self.number].iter().position(|known| *known == tuple).unwrap_or(self.number);
        *self.tuples.get_mut(at)? = tuple;
        self.number = self.number.max(at + 1);
        Some(1 + at as u8)
    }

    /// The record of one more rule of this category.
    fn record(&mut self, category: u8) -> Option<&mut Record> {
        let record = self.records.get_mut(self.rules)?;
        record[0] = category;
        self.rules += 1;
        Some(record)
    }

    fn merge(&mut self, one: usize, other: usize) -> Option<()> {
        let (s, t) = (self.tuples[one], self.tuples[other]);
        let (selector, category) = (first(s.rows[0]), first(t.rows[0]));
        if !(17..=31).contains(&selector) || selector - 16 != category {
            return Some(());
        }
        let (alpha, beta) = (s.rows[0] >> 8, t.rows[0] >> 8);
        let number = s.moving().len() + t.moving().len() + (beta != 0) as usize;
        if alpha == 0 || number > 3 {
            return Some(());
        }
        let (mut rows, mut variables, mut chains, mut used) = ([alpha, 0, 0, 0], [0; 4], 1, 0);
        let from_s = s.moving().iter().zip(1..);
        let from_t = t.moving().iter().zip(5..);
        let moves = (beta != 0).then_some((&beta, 4));
        for (&row, variable) in from_s.chain(moves).chain(from_t) {
            if !is_licensee(first(row)) || used & 1 << (first(row) - 49) != 0 {
                return Some(());
            }
            used |= 1 << (first(row) - 49);
            (rows[chains], variables[chains]) = (row, variable);
            chains += 1;
        }
        let made = self.category(Tuple { lexical: false, rows })?;
        let record = self.record(made)?;
        (record[1], record[2], record[3]) = (2, 1 + one as u8, 1 + other as u8);
        record[7..7 + chains].fill(1);
        let mut at = 12;
        if beta == 0 {
            record[7] = 2;
            (record[11], record[12]) = if s.lexical { (0, 4) } else { (4, 0) };
            at = 13;
        }
        record[at..at + chains - 1].copy_from_slice(&variables[1..chains]);
        Some(())
    }

    fn move_once(&mut self, one: usize) -> Option<()> {
        let s = self.tuples[one];
        let (licensor, alpha, chains) = (first(s.rows[0]), s.rows[0] >> 8, s.chains());
        if !(33..=35).contains(&licensor) || alpha == 0 {
            return Some(());
        }
        let Some(moved) = s.moving().iter().position(|&row| first(row) == licensor + 16).map(|i| 1 + i) else { return Some(()) };
        let beta = s.rows[moved] >> 8;
        let is_taken = s.moving().iter().any(|&row| first(row) == first(beta));
        if beta != 0 && (!is_licensee(first(beta)) || is_taken && first(beta) != licensor + 16) {
            return Some(());
        }
        let mut rows = s.rows;
        rows[0] = alpha;
        if beta == 0 {
            rows.copy_within(moved + 1.., moved);
            rows[3] = 0;
        } else {
            rows[moved] = beta;
        }
        let made = self.category(Tuple { lexical: false, rows })?;
        let record = self.record(made)?;
        (record[1], record[2]) = (1, 1 + one as u8);
        let mut at = 11;
        let own = if beta == 0 { chains - 1 } else { chains };
        record[7..7 + own].fill(1);
        if beta == 0 {
            record[7] = 2;
            record[at] = moved as u8;
            at += 1;
        }
        for variable in (0..chains).filter(|&variable| beta != 0 || variable != moved) {
            record[at] = variable as u8;
            at += 1;
        }
        Some(())
    }

    /// The blocks of the file, with their checks.
    fn write(&self, words: u16, file: &mut [u8]) {
        file.fill(0);
        let (blocks, _) = file.as_chunks_mut::<BLOCK>();
        let (heading, rule_blocks) = blocks.split_first_mut().expect("a file has a heading");
        heading[2] = 1;
        heading[3] = 1 + self.number as u8;
        heading[5..7].copy_from_slice(&words.to_le_bytes());
        heading[7..9].copy_from_slice(&(self.rules as u16).to_le_bytes());
        heading[16] = 1;
        for (byte, tuple) in heading[17..].iter_mut().zip(&self.tuples[..self.number]) {
            *byte = tuple.chains() as u8;
        }
        for (k, (block, records)) in rule_blocks.iter_mut().zip(self.records[..self.rules].chunks(RECORDS_IN_BLOCK)).enumerate() {
            (block[0], block[2], block[3]) = (1 + k as u8, 2, records.len() as u8);
            block[4..4 + RECORD * records.len()].copy_from_slice(records.as_flattened());
        }
        for block in blocks {
            let sum = check(block);
            block[508..].copy_from_slice(&sum.to_le_bytes());
        }
    }
}

#[cfg(test)]
mod tests {
    use super::*;
    use reference::file::read;
    use reference::lexicon_notation::WrittenLexicon;
    use reference::renaming::renaming;
    use reference::samples::{full_lexicon, KNOWS, LEXICONS, QUESTION};
    use reference::{Answer, Calls, Reference};

    /// The same answer as the reference's, and the same grammar but for the numbering, with nothing past it changed.
    fn as_the_reference(lexicon: &[u8], words: u32, start: u32, room: usize) {
        let (mut out, mut expected) = (vec![7; room], vec![7; room]);
        let answer = make(lexicon, words, start, &mut out).map_or_else(Answer::Refused, Answer::Accepted);
        assert_eq!(answer, Reference.make_grammar(lexicon, words, start, &mut expected), "{lexicon:?} {words} {start}");
        let length = if let Answer::Accepted(length) = answer { length as usize } else { 0 };
        assert_eq!(out[length..], expected[length..]);
        if length > 0 {
            assert!(renaming(&read(&out[..length]).unwrap(), &read(&expected[..length]).unwrap()).is_some(), "{lexicon:?}");
        }
    }

    #[test]
    fn samples() {
        for (text, start) in LEXICONS.map(|text| (text, "c")).into_iter().chain([(KNOWS, "C"), (QUESTION, "C")]) {
            let written = WrittenLexicon::new(text);
            for room in [0, 1023, 1024, 14 * BLOCK] {
                as_the_reference(&written.bytes, written.word_count(), written.category(start), room);
                as_the_reference(&written.bytes.repeat(2), written.word_count(), written.category(start), room);
            }
            for (place, byte) in (0..written.bytes.len()).flat_map(|place| [0, 1, 16, 17, 33, 35, 49, 50, 52].map(|byte| (place, byte))) {
                let mut changed = written.bytes.clone();
                changed[place] = byte;
                as_the_reference(&changed, written.word_count(), written.category(start), 14 * BLOCK);
            }
        }
    }

    #[test]
    fn limits() {
        for (words, others) in [(0, 0), (17, 3), (18, 3), (16, 4), (20, 0), (21, 0)] {
            for start in [0, 1, 2, 4, 15, 16] {
                as_the_reference(&full_lexicon(words, others), 40, start, 14 * BLOCK);
            }
        }
        for words in [0, 1, 4096, 4097] {
            as_the_reference(&full_lexicon(0, 0), words, 1, 14 * BLOCK);
        }
    }
}
