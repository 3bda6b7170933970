//! Lexicons in writing, an entry a line, for tests and examples:
//!
//! ```text
//! who :: D -wh
//! likes :: =D =D V
//! empty :: =V +wh C
//! ```
//!
//! Words, categories and licensees are numbered as they appear, `empty` is the empty word. `=D` is the selector of D, `+wh` the licensor of
//! `-wh`.

use crate::grammar::EMPTY_WORD;
use crate::lexicon::ENTRY;

/// A lexicon as the call takes it, and the names of its words from 0, of its categories from 1 and of its licensees from 49.
pub struct WrittenLexicon {
    pub bytes: Vec<u8>,
    pub words: Vec<String>,
    pub categories: Vec<String>,
    pub licensees: Vec<String>,
}

impl WrittenLexicon {
    /// The lexicon of a text. A test that gives a wrong text stops.
    pub fn new(text: &str) -> WrittenLexicon {
        let mut written = WrittenLexicon { bytes: vec![], words: vec![], categories: vec![], licensees: vec![] };
        for line in text.lines().filter(|line| !line.trim().is_empty()) {
            let (word, features) = line.split_once("::").expect("an entry has a word and features");
            let word = match word.trim() {
                "empty" => EMPTY_WORD,
                word => number(&mut written.words, word) as u16,
            };
            let mut entry = word.to_le_bytes().to_vec();
            entry.extend(features.split_whitespace().map(|feature| written.feature(feature)));
            assert!(entry.len() <= ENTRY, "an entry has at most six features");
            entry.resize(ENTRY, 0);
            written.bytes.extend(entry);
        }
        written
    }

    fn feature(&mut self, text: &str) -> u8 {
        let (mark, name) = text.split_at(text.len().min(1));
        match mark {
            "=" => 17 + number(&mut self.categories, name),
            "+" => 33 + number(&mut self.licensees, name),
            "-" => 49 + number(&mut self.licensees, name),
            _ => 1 + number(&mut self.categories, text),
        }
    }

    /// How many words appear in it.
    pub fn word_count(&self) -> u32 {
        self.words.len() as u32
    }

    /// The number of a category that appears in it.
    pub fn category(&self, name: &str) -> u32 {
        1 + self.categories.iter().position(|known| known == name).expect("a category of the lexicon") as u32
    }
}

/// The name's place among those that appeared, this one now included.
fn number(names: &mut Vec<String>, name: &str) -> u8 {
    let known = names.iter().position(|known| known == name);
    known.unwrap_or_else(|| {
        names.push(name.to_string());
        names.len() - 1
    }) as u8
}
