//! Words heard unclearly (document 02, paper 5): an unclear sentence beside the clear ones within its ranges, and the fixed inputs.

use reference::live::live_prefixes;
use reference::notation::places;
use reference::samples::{AGREEMENT, CHAIN, COPY, SHUFFLED};
use reference::sentence::{clear_sentences, highest, lowest};
use reference::{word, words, Answer};

use crate::analyses::Analysis;
use crate::compare::{Difference, Done, Pair};
use crate::fixed::every_call_with;
use crate::grammars::Made;
use crate::rng::Rng;
use crate::sentences::{is_unclear, widened};
use crate::show::show_file;
use crate::tally::Call;

/// The most clear sentences that an unclear one is compared with.
const MOST_CLEAR: usize = 64;

/// The number of clear sentences within the ranges of a right sentence; nothing where they are more than 64.
pub fn number_of_clear(sentence: &[u32]) -> Option<usize> {
    let widths = sentence.iter().map(|&place| (highest(place) - lowest(place)) as usize + 1);
    widths.into_iter().try_fold(1, |number, width| Some(number * width).filter(|&number| number <= MOST_CLEAR))
}

/// The count of an unclear sentence is the sum of those of the clear sentences within its ranges, where they are at most 64, and its listing
/// is theirs together, in dictionary order: the tested side beside itself. The effort limit suffices for the unclear sentence.
pub fn as_its_clear_ones(pair: &mut Pair, file: &[u8], sentence: &[u32], limits: (u64, u64)) -> Done {
    let wrong = |call: Call, text: String| {
        let input = format!("sentence {}\nlimits {limits:?}\n{}", places(sentence), show_file(file));
        Err(Difference { call, text: format!("an unclear sentence is not its clear ones together: {text}\n{input}") })
    };
    let Some(2..) = number_of_clear(sentence) else { return Ok(()) };
    let clear = clear_sentences(sentence);
    let whole = counted(pair, file, sentence, limits);
    let parts: Option<Vec<(u32, u32)>> = clear.iter().map(|clear| counted(pair, file, clear, limits)).collect();
    let (Some(whole), Some(parts)) = (whole, parts) else { return wrong(Call::Count, "one of them is refused".to_string()) };
    let sum: u64 = parts.iter().map(|(count, _)| *count as u64).sum();
    if sum != whole.0 as u64 || parts.iter().any(|(_, effort)| *effort > whole.1) {
        return wrong(Call::Count, format!("count and effort {whole:?}, of the clear ones {parts:?}"));
    }
    let listing = traces(pair, file, sentence, limits, whole.0);
    let mut together: Vec<Vec<u16>> =
        clear.iter().zip(&parts).flat_map(|(clear, (count, _))| traces(pair, file, clear, limits, *count)).collect();
    together.sort();
    if listing != together {
        return wrong(Call::Entry, format!("{listing:?}, of the clear ones {together:?}"));
    }
    pair.tally.unclear_listings += 1;
    pair.tally.listings_of_several += (parts.iter().filter(|(count, _)| *count > 0).count() > 1) as u64;
    Ok(())
}

/// The most live prefixes, roughly, that are looked through to compare a random sentence with its clear ones.
const MOST_LIVE: u64 = 2_000;

/// The same, for a right sentence with that count and with the effort that the limits name, where it does not take long.
pub fn beside_few_clear_ones(pair: &mut Pair, file: &[u8], sentence: &[u32], limits: (u64, u64), count: u64) -> Done {
    match number_of_clear(sentence) {
        Some(clear) if (clear as u64 + 2 * count) * limits.1 <= MOST_LIVE => as_its_clear_ones(pair, file, sentence, limits),
        _ => Ok(()),
    }
}

/// Count, entries and clear sentences of an unclear sentence with this analysis, where it is small.
pub fn counts(pair: &mut Pair, rng: &mut Rng, made: &Made, analysis: &Analysis) -> Done {
    let sentence = widened(rng, &made.grammar, &analysis.sentence);
    let node_limit = analysis.tree.len();
    if node_limit > 16 || !is_unclear(&sentence) {
        return Ok(());
    }
    let Some(live) = live_prefixes(&made.grammar, &sentence, node_limit, 200) else { return Ok(()) };
    let (limits, count) = ((node_limit as u64, live.effort), live.complete.len() as u64);
    pair.count(&made.file, &sentence, limits.0, limits.1)?;
    for m in 0..count.min(6) {
        pair.entry(&made.file, &sentence, limits, m, 96)?;
    }
    beside_few_clear_ones(pair, &made.file, &sentence, limits, count)
}

/// Count and effort on the tested side, unless it refuses.
fn counted(pair: &Pair, file: &[u8], sentence: &[u32], limits: (u64, u64)) -> Option<(u32, u32)> {
    match pair.tested.count(file, sentence, limits.0, limits.1) {
        Answer::Counted { count, effort } => Some((count, effort)),
        _ => None,
    }
}

/// The first entries on the tested side, empty where it refuses one.
fn traces(pair: &Pair, file: &[u8], sentence: &[u32], limits: (u64, u64), count: u32) -> Vec<Vec<u16>> {
    let entry = |m: u32| {
        let mut out = [0; 96];
        match pair.tested.entry(file, sentence, limits.0, limits.1, m as u64, &mut out) {
            Answer::Accepted(steps) => out[..96.min(steps as usize)].to_vec(),
            _ => vec![],
        }
    };
    (0..count).map(entry).collect()
}

pub fn fixed(pair: &mut Pair) -> Done {
    every_range(pair)?;
    order_of_refusals(pair)?;
    wrong_places_of_long_sentences(pair)?;
    lengths(pair)?;
    agreement(pair)?;
    limits_and_clear_ones(pair)
}

/// A word each of one category: rule r gives the r-th of these words.
fn one_word_each(numbers: &[u16]) -> Made {
    Made::of_text(&numbers.iter().map(|number| format!("S <- {number}\n")).collect::<String>())
}

/// Places with every two of some ends, words and numbers that are none, for every word: ends included, the lowest above the highest, and
/// numbers that are words once they are cut to 8 or 12 bits.
fn every_range(pair: &mut Pair) -> Done {
    let few: (&[u16], &[u16]) = (&[0, 1, 2, 3, 4], &[5, 6, 259, 4098, 65_534, 65_535]);
    let many: (&[u16], &[u16]) = (&[0, 1, 255, 256, 257, 4095], &[4096, 65_535]);
    for (numbers, no_words) in [few, many] {
        let file = &one_word_each(numbers).file;
        let ends = [numbers, no_words].concat();
        for (&low, &high) in ends.iter().flat_map(|low| ends.iter().map(move |high| (low, high))) {
            for rule in 0..numbers.len() as u16 {
                every_call_with(pair, file, &[words(low, high)], &[rule], (1, 20))?;
            }
        }
    }
    Ok(())
}

/// Right places, 11 and 29 in every order at three places. The word count is 3.
fn order_of_refusals(pair: &mut Pair) -> Done {
    let file = &Made::of_text("S(xyz) <- A(x) A(y) A(z)\nA <- 0\nA <- 2").file;
    let kinds = [word(0), words(0, 2), words(1, 0), words(2, 0), words(3, 1), words(1, 3), words(4, 3), words(65_535, 65_535)];
    for (a, b, c) in kinds.into_iter().flat_map(|a| kinds.into_iter().flat_map(move |b| kinds.map(|c| (a, b, c)))) {
        every_call_with(pair, file, &[a, b, c], &[0, 1, 2, 1], (4, 30))?;
    }
    // before 12, and after 23 and 24
    for place in kinds {
        every_call_with(pair, file, &[word(2), place], &[0; 97], (4, 1))?;
        every_call_with(pair, file, &[place], &[0, 1, 2, 1], (0, 30))?;
        for out in [0, 95] {
            pair.trace_to_tree(file, &[place], &[], out)?;
            pair.tree_to_trace(file, &[place], &[], out)?;
            pair.entry(file, &[place], (4, 30), 0, out)?;
        }
    }
    Ok(())
}

/// Every row of words 0 and 1.
const EITHER: &str = "
S(xy) <- S(x) S(y)
S <- 0
S <- 1
";

/// 29 and 11 at each place of 96 and of 97, alone and with the other at the place after.
fn wrong_places_of_long_sentences(pair: &mut Pair) -> Done {
    let file = &Made::of_text(EITHER).file;
    for (first, second) in [(words(1, 0), word(0)), (words(1, 0), words(0, 2)), (words(0, 2), words(1, 0)), (words(2, 0), words(1, 0))] {
        for k in 0..97 {
            let mut sentence = vec![words(0, 1); 98];
            (sentence[k], sentence[k + 1]) = (first, second);
            for length in [96, 97] {
                every_call_with(pair, file, &sentence[..length], &[0, 1, 1], (3, 20))?;
            }
        }
    }
    Ok(())
}

/// Unclear sentences of each length up to 97, with the analysis of as many words and with that of one word more and one fewer, and with a
/// word in the middle that does not fit.
fn lengths(pair: &mut Pair) -> Done {
    let file = &Made::of_text(EITHER).file;
    for n in 0..=97 {
        let mut sentence = vec![words(0, 1); n];
        for string in [n.saturating_sub(1), n, n + 1] {
            let list = in_pairs_from_the_left(string);
            every_call_with(pair, file, &sentence, &list[..list.len().min(97)], (5, 40))?;
        }
        if n > 0 {
            // the analysis has word 1 at odd places
            sentence[n / 2] = word(1 - n as u16 / 2 % 2);
            let list = in_pairs_from_the_left(n);
            every_call_with(pair, file, &sentence, &list[..list.len().min(97)], (5, 40))?;
        }
    }
    Ok(())
}

/// The trace, which is also the tree, of words 0 and 1 in turn put into pairs from the left.
fn in_pairs_from_the_left(words: usize) -> Vec<u16> {
    [vec![0; words.saturating_sub(1)], (0..words).map(|i| 1 + i as u16 % 2).collect()].concat()
}

/// Every two ranges over the five words, after word 0, after any word and after a word that begins no sentence, with both analyses.
fn agreement(pair: &mut Pair) -> Done {
    let file = &Made::of_text(AGREEMENT).file;
    let ranges: Vec<u32> = (0..5).flat_map(|low| (low..5).map(move |high| words(low, high))).collect();
    for &second in &ranges {
        for &third in &ranges {
            for first in [word(0), words(0, 4), words(1, 2)] {
                let sentence = [first, second, third];
                every_call_with(pair, file, &sentence, &[0, 2, 4, 5, 7], (5, 30))?;
                every_call_with(pair, file, &sentence, &[1, 3, 4, 6, 8], (5, 30))?;
                as_its_clear_ones(pair, file, &sentence, (5, 30))?;
            }
        }
    }
    Ok(())
}

/// The empty word beside unclear places, and components that may be empty.
const SILENT_EITHER: &str = "
S(xy) <- S(x) S(y)
S(xy) <- P(x,y)
P(x,) <- S(x)
S <- empty
S <- 0
S <- 1
S <- 2
";

/// Node limits and effort limits up to past the effort, every entry, and the clear sentences.
fn limits_and_clear_ones(pair: &mut Pair) -> Done {
    for text in [COPY, CHAIN, SHUFFLED, AGREEMENT, SILENT_EITHER] {
        let made = Made::of_text(text);
        let all = words(0, made.grammar.words as u16 - 1);
        let or_one = words(0, 1);
        for sentence in [&[all][..], &[all, all], &[or_one, word(1), or_one, or_one], &[word(0), all, all], &[or_one; 6], &[]] {
            for node_limit in [1, 3, 4, 5, 7] {
                limits(pair, &made, sentence, node_limit)?;
            }
        }
    }
    Ok(())
}

fn limits(pair: &mut Pair, made: &Made, sentence: &[u32], node_limit: usize) -> Done {
    let (file, n) = (&made.file, node_limit as u64);
    let Some(live) = live_prefixes(&made.grammar, sentence, node_limit, 150) else { return Ok(()) };
    for limit in [1, live.effort / 2, live.effort - 1, live.effort, live.effort + 1] {
        pair.count(file, sentence, n, limit)?;
        pair.entry(file, sentence, (n, limit), 0, 96)?;
    }
    for m in 0..live.complete.len() as u64 + 2 {
        pair.entry(file, sentence, (n, live.effort), m, 96)?;
    }
    for trace in live.complete.iter().take(10) {
        every_call_with(pair, file, sentence, trace, (n, live.effort))?;
    }
    as_its_clear_ones(pair, file, sentence, (n, live.effort))
}

#[cfg(test)]
mod tests {
    use super::*;

    /// Without the reference: three words in another order than their rules.
    fn alone(tested: &dyn reference::Calls) -> Result<u64, String> {
        let mut pair = Pair::new(tested);
        let outcome = as_its_clear_ones(&mut pair, &one_word_each(&[1, 0, 2]).file, &[words(0, 2)], (1, 10));
        outcome.map(|()| pair.tally.listings_of_several).map_err(|difference| difference.text)
    }

    #[test]
    fn found_without_the_reference() {
        assert_eq!(alone(faulty::unchanged().as_ref()), Ok(1));
        let faults = faulty::faulty();
        for name in [
            "the highest word of an unclear place not taken",
            "the ends of an unclear place alone taken",
            "a step over an unclear place not counted in the effort",
            "an unclear sentence has one analysis at most",
            "the entries of an unclear sentence are those of its lowest words",
            "the listing of an unclear sentence goes clear sentence by clear sentence",
        ] {
            let (_, copy) = faults.iter().find(|(known, _)| *known == name).expect("a fault of that name");
            assert!(alone(copy.as_ref()).is_err_and(|text| text.starts_with("an unclear sentence is not its clear ones")), "{name}");
        }
    }

    #[test]
    fn at_most_64_clear_sentences() {
        assert_eq!(number_of_clear(&[]), Some(1));
        assert_eq!(number_of_clear(&[words(3, 5), word(7), words(0, 1)]), Some(6));
        assert_eq!(number_of_clear(&[words(0, 63)]), Some(64));
        assert_eq!(number_of_clear(&[words(0, 64)]), None);
        assert_eq!(number_of_clear(&[words(0, 1); 6]), Some(64));
        assert_eq!(number_of_clear(&[words(0, 65_535); 96]), None);
    }
}
