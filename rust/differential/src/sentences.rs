//! Random sentences: single words, places widened around them or just past them, and places that are none.

use reference::grammar::Grammar;
use reference::sentence::{highest, lowest, single_words, test_sentence};
use reference::{word, words};

use crate::rng::Rng;

/// Whether a place holds two different ends, in whatever order.
pub fn is_unclear(sentence: &[u32]) -> bool {
    sentence.iter().any(|&place| lowest(place) != highest(place))
}

/// The last word.
fn last(grammar: &Grammar) -> usize {
    grammar.words - 1
}

/// A place with these ends, which fit into their 16 bits.
fn range(lowest: usize, highest: usize) -> u32 {
    words(lowest as u16, highest as u16)
}

fn ends(place: u32) -> (usize, usize) {
    (lowest(place) as usize, highest(place) as usize)
}

/// The sentence with some of its places wider: all that fitted fits. Places that are none stay.
pub fn widened(rng: &mut Rng, grammar: &Grammar, sentence: &[u32]) -> Vec<u32> {
    let percent = rng.pick(&[20, 50, 100]);
    let is_right = |place: u32| test_sentence(grammar, &[place]).is_ok();
    sentence.iter().map(|&place| if is_right(place) && rng.chance(percent) { wider(rng, grammar, place) } else { place }).collect()
}

/// The place with a neighbour more at one end or at both, over all words, or with any ends that leave its words between them.
fn wider(rng: &mut Rng, grammar: &Grammar, place: u32) -> u32 {
    let (low, high) = ends(place);
    let (below, above) = (low.saturating_sub(1), last(grammar).min(high + 1));
    match rng.below(6) {
        0 => range(below, high),
        1 => range(low, above),
        2 => range(below, above),
        3 => range(0, last(grammar)),
        _ => range(rng.below(low + 1), rng.from_to(high, last(grammar))),
    }
}

/// The sentence with one place just below its words or just above them, where there are any words: what fitted there does not fit.
pub fn just_missed(rng: &mut Rng, grammar: &Grammar, sentence: &[u32]) -> Vec<u32> {
    let mut missed = sentence.to_vec();
    let Some(i) = any_place(rng, sentence) else { return missed };
    let ((low, high), last) = (ends(sentence[i]), last(grammar));
    if low > 0 && (high == last || rng.chance(50)) {
        missed[i] = range(rng.below(low), low - 1);
    } else if high < last {
        missed[i] = range(high + 1, rng.from_to(high + 1, last));
    }
    missed
}

fn any_place(rng: &mut Rng, sentence: &[u32]) -> Option<usize> {
    (!sentence.is_empty()).then(|| rng.below(sentence.len()))
}

/// The sentence with one to three places that are none, 11 or 29.
pub fn with_wrong_places(rng: &mut Rng, grammar: &Grammar, sentence: &[u32]) -> Vec<u32> {
    let mut wrong = sentence.to_vec();
    for _ in 0..rng.pick(&[1, 2, 2, 3]) {
        match any_place(rng, &wrong) {
            Some(i) => wrong[i] = wrong_place(rng, grammar),
            None => wrong.push(wrong_place(rng, grammar)),
        }
    }
    wrong
}

/// A place with an end that is no word, on either side or both, or with a lowest word above its highest.
pub fn wrong_place(rng: &mut Rng, grammar: &Grammar) -> u32 {
    let (number, one) = (grammar.words, rng.below(grammar.words));
    // the first that are no words, the last of 16 bits, and some that are words once they are cut to 8 or 12 bits
    let no_words = [number, number + 1, 65_534, 65_535, one + 4096, (one + 256).max(number)];
    let no_word = rng.pick(&no_words);
    match rng.below(6) {
        0 => range(one, no_word),
        1 => range(no_word, one),
        2 => range(no_word, rng.pick(&no_words)),
        _ if one > 0 => range(one, rng.below(one)),
        _ => range(no_word, one),
    }
}

/// Words in the place of others, more of them or fewer.
pub fn changed(rng: &mut Rng, grammar: &Grammar, sentence: &[u32]) -> Vec<u32> {
    let number = grammar.words;
    let mut changed = sentence.to_vec();
    let i = rng.below(changed.len() + 1);
    let one = word(rng.below(number) as u16);
    match rng.below(10) {
        0 | 1 => changed.insert(i, one),
        2 | 3 if i < sentence.len() => changed[i] = one,
        4 if i < sentence.len() => drop(changed.remove(i)),
        5 => drop(changed.pop()),
        6 => changed.insert(i, word(rng.pick(&[number as u16, 65_535, 65_534, 4096]))),
        7 => changed.truncate(i),
        8 => changed.resize(rng.pick(&[95, 96, 97, 98, 150, 300]), word(rng.below(number + 1) as u16)),
        _ => changed.push(one),
    }
    changed
}

/// This sentence of single words or one near it, more often than not of single words too.
pub fn near(rng: &mut Rng, grammar: &Grammar, sentence: &[u32]) -> Vec<u32> {
    match rng.below(20) {
        0..=5 => sentence.to_vec(),
        6..=9 => changed(rng, grammar, sentence),
        10..=12 => widened(rng, grammar, sentence),
        13 | 14 => {
            let changed = changed(rng, grammar, sentence);
            widened(rng, grammar, &changed)
        }
        15 | 16 => {
            let wide = widened(rng, grammar, sentence);
            just_missed(rng, grammar, &wide)
        }
        _ => with_wrong_places(rng, grammar, sentence),
    }
}

/// Words at random, none, some or over 96 of them.
pub fn any_words(rng: &mut Rng, grammar: &Grammar) -> Vec<u16> {
    let n = rng.pick(&[0, 0, 1, 1, 2, 3, 4, 8, 96, 97]);
    (0..n).map(|_| rng.below(grammar.words) as u16).collect()
}

/// Such words, or places around them; places that are none in one sentence of ten.
pub fn any(rng: &mut Rng, grammar: &Grammar) -> Vec<u32> {
    let single = single_words(&any_words(rng, grammar));
    match rng.below(10) {
        0..=5 => single,
        6..=8 => widened(rng, grammar, &single),
        _ => with_wrong_places(rng, grammar, &single),
    }
}

#[cfg(test)]
mod tests {
    use super::*;
    use reference::file::read;
    use reference::notation::grammar_file;
    use reference::sentence::fits;

    fn grammar() -> Grammar {
        read(&grammar_file("S <- 6")).unwrap()
    }

    /// All that fitted fits a widened sentence, and a word is outside its place once it is just missed, by one.
    #[test]
    fn around_the_words() {
        let (grammar, string) = (grammar(), [0, 3, 6]);
        let single = single_words(&string);
        let (mut unclear, mut beside) = (0, [0; 2]);
        for case in 0..500 {
            let rng = &mut Rng::new(1, case);
            let wide = widened(rng, &grammar, &single);
            assert!(test_sentence(&grammar, &wide).is_ok() && fits(&string, &wide));
            unclear += is_unclear(&wide) as u32;
            let missed = just_missed(rng, &grammar, &single);
            assert!(test_sentence(&grammar, &missed).is_ok() && !fits(&string, &missed));
            let moved: Vec<usize> = (0..3).filter(|&i| missed[i] != single[i]).collect();
            assert_eq!(moved.len(), 1);
            let (word, place) = (string[moved[0]], missed[moved[0]]);
            assert!(lowest(place) == word + 1 || highest(place) + 1 == word);
            beside[(lowest(place) == word + 1) as usize] += 1;
        }
        assert!(unclear > 300 && beside[0] > 100 && beside[1] > 100, "{unclear} {beside:?}");
    }

    /// Every wrong place is one, and each end is met wrong by itself, both together, and the lowest above the highest.
    #[test]
    fn places_that_are_none() {
        let grammar = grammar();
        let mut met = [0; 4];
        for case in 0..500 {
            let place = wrong_place(&mut Rng::new(2, case), &grammar);
            assert!(test_sentence(&grammar, &[place]).is_err());
            met[2 * (lowest(place) > 6) as usize + (highest(place) > 6) as usize] += 1;
        }
        assert!(met.into_iter().all(|times| times > 20), "{met:?}");
    }
}
