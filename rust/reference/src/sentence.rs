//! A sentence's places (document 02, paper 5): what a place holds, which words it takes, which yields fit, and refusals 11 and 29.

use crate::calls::{word, Refusal};
use crate::grammar::Grammar;

/// The longest sentence, trace and tree, and the highest node limit.
pub const MOST: usize = 96;

/// "A sentence place now holds a lowest and a highest word number, lent as one 32-bit number with the highest in the upper 16 bits".
pub fn lowest(place: u32) -> u16 {
    (place % 65_536) as u16
}

pub fn highest(place: u32) -> u16 {
    (place / 65_536) as u16
}

/// A sentence of single words.
pub fn single_words(words: &[u16]) -> Vec<u32> {
    words.iter().map(|&number| word(number)).collect()
}

/// The sentences of single words within the ranges, in dictionary order.
pub fn clear_sentences(sentence: &[u32]) -> Vec<Vec<u32>> {
    sentence.iter().fold(vec![vec![]], |begun, &place| {
        let clear = (lowest(place)..=highest(place)).map(word);
        begun.iter().flat_map(|words| clear.clone().map(|next| [&words[..], &[next]].concat())).collect()
    })
}

/// "a scan takes it when the rule's word lies between them, ends included".
pub fn takes(place: u32, word: u16) -> bool {
    lowest(place) <= word && word <= highest(place)
}

/// "A tree then fits when its yield has the sentence's length and lies within the ranges place by place."
pub fn fits(string: &[u16], sentence: &[u32]) -> bool {
    string.len() == sentence.len() && string.iter().zip(sentence).all(|(&word, &place)| takes(place, word))
}

/// 11 over 96 words, tested first. Then place by place: 11 an end that is no word, 29 lowest above highest.
pub fn test_sentence(grammar: &Grammar, sentence: &[u32]) -> Result<(), Refusal> {
    if sentence.len() > MOST {
        return Err(Refusal::analysis(11, MOST));
    }
    for (k, &place) in sentence.iter().enumerate() {
        if is_no_word(grammar, lowest(place)) || is_no_word(grammar, highest(place)) {
            return Err(Refusal::analysis(11, k));
        }
        if lowest(place) > highest(place) {
            return Err(Refusal::analysis(29, k));
        }
    }
    Ok(())
}

fn is_no_word(grammar: &Grammar, number: u16) -> bool {
    number as usize >= grammar.words
}
