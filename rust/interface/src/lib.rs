//! The calls and their answers ("Who can cause a refusal").

mod refusals;

use std::fmt;

pub use refusals::refusal_text;

/// Who can cause a refusal: the grammar's author, the analysis's author or the desk.
#[derive(Clone, Copy, Debug, PartialEq, Eq)]
pub enum Whose {
    Grammar,
    Analysis,
    Desk,
}

#[derive(Clone, Copy, Debug, PartialEq, Eq)]
pub struct Refusal {
    pub whose: Whose,
    pub number: u8,
    pub place: u32,
}

impl Refusal {
    pub fn grammar(number: u8, place: usize) -> Refusal {
        Refusal { whose: Whose::Grammar, number, place: place as u32 }
    }

    pub fn analysis(number: u8, place: usize) -> Refusal {
        Refusal { whose: Whose::Analysis, number, place: place as u32 }
    }

    pub fn desk(number: u8) -> Refusal {
        Refusal { whose: Whose::Desk, number, place: 0 }
    }
}

/// Number, place, and what the refusal says.
impl fmt::Display for Refusal {
    fn fmt(&self, f: &mut fmt::Formatter) -> fmt::Result {
        write!(f, "refusal {} at place {}: {}", self.number, self.place, refusal_text(self.number))
    }
}

/// A verdict: the values of the call, or its refusal.
#[derive(Clone, Copy, Debug, PartialEq, Eq)]
pub enum Answer {
    /// A node count; of the reader R, of the survey C, of the writer and of a made grammar the file's length, of an entry its number of
    /// steps, of a weighing the sum of weights, of a date and of the opening day the day's number, of open or not 1 or 0.
    Accepted(u32),
    Counted {
        count: u32,
        effort: u32,
    },
    /// The date of a day number.
    Dated(Date),
    Refused(Refusal),
    /// An answer with bits that no answer has. The reference never gives it.
    Malformed(u64),
}

/// What the writer takes beside the records: a heading's numbers and the dimension bytes, 64 where it is a heading.
#[derive(Clone, Debug, PartialEq, Eq)]
pub struct Heading {
    pub categories: u8,
    pub start: u8,
    pub words: u16,
    pub rules: u16,
    pub dimensions: Vec<u8>,
}

/// A year, a month and a day of the month, ordered by year, then month, then day. Any three numbers: the calls say whether they are a date.
#[derive(Clone, Copy, Debug, PartialEq, Eq, PartialOrd, Ord)]
pub struct Date {
    pub year: u32,
    pub month: u32,
    pub day: u32,
}

/// A sentence's place that holds one word.
pub fn word(word: u16) -> u32 {
    words(word, word)
}

/// A sentence's place that holds a lowest and a highest word number, as the calls take it: the highest in the upper 16 bits (document 02,
/// paper 5).
pub fn words(lowest: u16, highest: u16) -> u32 {
    (highest as u32) << 16 | lowest as u32
}

/// The public calls. A sentence is a list of places. A refused call changes no buffer, and an accepted one nothing past the last entry that
/// it writes.
pub trait Calls: TreeCalls + DateCalls {
    fn read_grammar(&self, file: &[u8]) -> Answer;
    fn write_grammar(&self, heading: &Heading, records: &[u8], out: &mut [u8]) -> Answer;
    /// The grammar file of a lexicon of features with this word count and this start category (document 02, paper 6).
    fn make_grammar(&self, lexicon: &[u8], words: u32, start: u32, out: &mut [u8]) -> Answer;
    fn check_trace(&self, file: &[u8], sentence: &[u32], trace: &[u16]) -> Answer;
    fn weigh_trace(&self, file: &[u8], sentence: &[u32], trace: &[u16]) -> Answer;
    fn count(&self, file: &[u8], sentence: &[u32], node_limit: u64, effort_limit: u64) -> Answer;
    fn entry(&self, file: &[u8], sentence: &[u32], node_limit: u64, effort_limit: u64, entry: u64, out: &mut [u16]) -> Answer;
    fn survey(&self, file: &[u8], out: &mut [u16]) -> Answer;
}

/// The public calls on derivation trees.
pub trait TreeCalls {
    fn check_tree(&self, file: &[u8], sentence: &[u32], tree: &[u16]) -> Answer;
    fn weigh_tree(&self, file: &[u8], sentence: &[u32], tree: &[u16]) -> Answer;
    fn trace_to_tree(&self, file: &[u8], sentence: &[u32], trace: &[u16], out: &mut [u16]) -> Answer;
    fn tree_to_trace(&self, file: &[u8], sentence: &[u32], tree: &[u16], out: &mut [u16]) -> Answer;
}

/// The public calls on dates and the days that deposits open (document 02, paper 3). They take no grammar and no buffer.
pub trait DateCalls {
    fn day_number(&self, date: Date) -> Answer;
    fn date_of(&self, number: u64) -> Answer;
    /// The number of the day a deposit of this date opens, after a term in months.
    fn opening_day(&self, date: Date, term: u64) -> Answer;
    /// Whether that deposit is open on the day with the number asked.
    fn is_open(&self, date: Date, term: u64, asked: u64) -> Answer;
}

#[cfg(test)]
mod tests {
    use super::*;

    #[test]
    fn refusals_in_words() {
        assert_eq!(Refusal::desk(25).to_string(), "refusal 25 at place 0: there are more live prefixes than the effort limit allows");
        let none = refusal_text(0);
        for number in 0..=255 {
            assert_eq!(refusal_text(number) == none, !(1..=31).contains(&number), "{number}");
        }
    }

    #[test]
    fn places() {
        assert_eq!(word(0), 0);
        assert_eq!(word(3), 0x0003_0003);
        assert_eq!(word(65_535), u32::MAX);
        assert_eq!(words(1, 2), 0x0002_0001);
        assert_eq!(words(65_535, 0), 0x0000_ffff);
        assert_eq!(words(0, 65_535), 0xffff_0000);
    }
}
