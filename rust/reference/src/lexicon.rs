//! Lexicons of features (document 02, paper 6): what an entry holds, and refusals 30 and 10.

use crate::calls::Refusal;
use crate::grammar::EMPTY_WORD;

/// "An entry is 8 bytes": a word and six feature bytes.
pub const ENTRY: usize = 8;

/// A feature. A category and its selector have one number, and so have a licensor and its licensee.
#[derive(Clone, Copy, Debug, PartialEq, Eq, PartialOrd, Ord)]
pub enum Feature {
    Category(u8),
    Selector(u8),
    Licensor(u8),
    Licensee(u8),
}

#[derive(Clone, Debug, PartialEq, Eq)]
pub struct Entry {
    /// Nothing for the empty word.
    pub word: Option<u16>,
    /// One feature at least.
    pub features: Vec<Feature>,
}

#[derive(Clone, Debug, PartialEq, Eq)]
pub struct Lexicon {
    pub entries: Vec<Entry>,
    pub words: u16,
    /// The wanted category.
    pub start: Feature,
}

/// 30, 10, or the lexicon.
pub fn read_lexicon(bytes: &[u8], words: u32, start: u32) -> Result<Lexicon, Refusal> {
    if bytes.len() % ENTRY != 0 || !(1..=32).contains(&(bytes.len() / ENTRY)) {
        return Err(Refusal::grammar(30, 0));
    }
    if !(1..=4096).contains(&words) || !(1..=15).contains(&start) {
        return Err(Refusal::grammar(30, 0));
    }
    let entries: Option<Vec<Entry>> = bytes.chunks_exact(ENTRY).map(|entry| entry_of(entry, words)).collect();
    let Some(entries) = entries else {
        return Err(Refusal::grammar(30, 0));
    };
    if let Some(later) = (0..entries.len()).find(|&later| entries[..later].contains(&entries[later])) {
        return Err(Refusal::grammar(10, later));
    }
    Ok(Lexicon { entries, words: words as u16, start: Feature::Category(start as u8) })
}

/// The entry that these eight bytes hold; nothing where it has no features, another byte, a byte after the 0 that is not 0 or a word that
/// does not exist.
fn entry_of(bytes: &[u8], words: u32) -> Option<Entry> {
    let word = u16::from_le_bytes([bytes[0], bytes[1]]);
    if word != EMPTY_WORD && word as u32 >= words {
        return None;
    }
    let end = bytes[2..].iter().position(|&byte| byte == 0).map_or(ENTRY, |features| 2 + features);
    let features: Vec<Feature> = bytes[2..end].iter().map(|&byte| feature_of(byte)).collect::<Option<_>>()?;
    if features.is_empty() || bytes[end..].iter().any(|&byte| byte != 0) {
        return None;
    }
    Some(Entry { word: if word == EMPTY_WORD { None } else { Some(word) }, features })
}

/// "1 to 15 a category, 17 to 31 its selector, 33 to 35 a licensor, 49 to 51 its licensee; a selector or licensee is 16 above its partner."
fn feature_of(byte: u8) -> Option<Feature> {
    match byte {
        1..=15 => Some(Feature::Category(byte)),
        17..=31 => Some(Feature::Selector(byte - 16)),
        33..=35 => Some(Feature::Licensor(byte)),
        49..=51 => Some(Feature::Licensee(byte - 16)),
        _ => None,
    }
}
