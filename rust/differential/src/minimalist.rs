//! What a made grammar counts for a sentence, beside the minimalist derivations of its lexicon (document 02, paper 6).

use reference::file::read;
use reference::grammar::Grammar;
use reference::lexicon::{read_lexicon, Lexicon};
use reference::notation::places;
use reference::samples::{KNOWS, LEXICONS, QUESTION};
use reference::sentence::{single_words, test_sentence};
use reference::{words, Answer, Refusal};

use crate::analyses;
use crate::compare::{Difference, Done, Pair};
use crate::lexicons::{Given, ROOM};
use crate::rng::Rng;
use crate::sentences::{any_words, changed, is_unclear, widened};
use crate::show::show_lexicon;
use crate::tally::Call;

/// How many tries of merging two expressions a count without a grammar may take.
const MOST_TRIES: usize = 200_000;

/// A lexicon, its file on the tested side, and the grammar that the reference makes.
struct Made {
    lexicon: Lexicon,
    file: Vec<u8>,
    grammar: Grammar,
}

/// Nothing where the lexicon is refused.
fn made(pair: &Pair, given: &Given) -> Option<Made> {
    let lexicon = read_lexicon(&given.lexicon, given.words, given.start).ok()?;
    let grammar = read(&given.file()?).expect("the reader takes it");
    let mut file = vec![0; ROOM];
    match pair.tested.make_grammar(&given.lexicon, given.words, given.start, &mut file) {
        Answer::Accepted(length) => file.truncate(length as usize),
        _ => return None,
    }
    Some(Made { lexicon, file, grammar })
}

/// The count of a right sentence is the number of derivations that fit it and have fewer nodes than the limit, where neither takes too
/// long: the tested side's count by its own file. Says whether they were compared.
fn as_derivations(pair: &mut Pair, given: &Given, made: &Made, sentence: &[u32], limits: (usize, u64)) -> Result<bool, Difference> {
    let answer = pair.tested.count(&made.file, sentence, limits.0 as u64, limits.1);
    if answer == Answer::Refused(Refusal::desk(25)) {
        return Ok(false);
    }
    let Some(derivations) = (pair.derivations)(&made.lexicon, sentence, limits.0, MOST_TRIES) else { return Ok(false) };
    match answer {
        Answer::Counted { count, .. } if count as u64 == derivations => {
            pair.tally.add_derivations(derivations, is_unclear(sentence));
            Ok(true)
        }
        _ => Err(counted_otherwise(given, sentence, limits, &format!("the made grammar counts {answer:?}\nexpected {derivations}"))),
    }
}

fn counted_otherwise(given: &Given, sentence: &[u32], limits: (usize, u64), what: &str) -> Difference {
    let input = format!("sentence {}\nlimits {limits:?}\n{}", places(sentence), show_lexicon(given));
    Difference { call: Call::MakeGrammar, text: format!("{what}\n{input}") }
}

/// Some sentences of a lexicon, with node limits around those of its derivations.
pub fn random_counts(pair: &mut Pair, rng: &mut Rng, given: &Given) -> Done {
    let Some(made) = made(pair, given) else { return Ok(()) };
    for _ in 0..4 {
        let most = rng.pick(&[4, 6, 8, 10, 12, 14]);
        let analysis = analyses::random(rng, &made.grammar, most);
        let (sentence, nodes) = match &analysis {
            Some(analysis) => (near(rng, &made.grammar, &analysis.sentence), analysis.tree.len()),
            None => (single_words(&any_words(rng, &made.grammar)), 3),
        };
        if test_sentence(&made.grammar, &sentence).is_err() {
            continue;
        }
        let node_limit = rng.pick(&[nodes, nodes, nodes, nodes + 1, nodes - 1, nodes + 2, 1, 2, 3, 5]).max(1);
        as_derivations(pair, given, &made, &sentence, (node_limit, 1_000))?;
        pair.count(&made.file, &sentence, node_limit as u64, 100)?;
    }
    Ok(())
}

/// This sentence, a wider one, or another.
fn near(rng: &mut Rng, grammar: &Grammar, sentence: &[u32]) -> Vec<u32> {
    match rng.below(10) {
        0..=4 => sentence.to_vec(),
        5..=7 => widened(rng, grammar, sentence),
        _ => changed(rng, grammar, sentence),
    }
}

pub fn fixed(pair: &mut Pair) -> Done {
    short_sentences(pair)?;
    questions(pair)
}

/// Every sentence of up to three words, and unclear ones, with every node limit up to 11.
fn short_sentences(pair: &mut Pair) -> Done {
    for text in LEXICONS {
        let given = Given::of_text(text, "c");
        let Some(made) = made(pair, &given) else { continue };
        let number = made.grammar.words as u16;
        let mut sentences: Vec<Vec<u16>> = vec![vec![]];
        for length in 0..3 {
            let longer = sentences
                .iter()
                .filter(|words| words.len() == length)
                .flat_map(|words| (0..number).map(move |word| [&words[..], &[word]].concat()));
            sentences.extend(longer.collect::<Vec<_>>());
        }
        let unclear = (1..=4).map(|length| vec![words(0, number - 1); length]);
        for sentence in sentences.iter().map(|words| single_words(words)).chain(unclear) {
            for node_limit in 1..=11 {
                as_derivations(pair, &given, &made, &sentence, (node_limit, 3_000))?;
            }
        }
    }
    Ok(())
}

/// Mary knows who John likes, by the lexicons of the source and of the example, with Mary and John heard clearly and not, with one node too
/// few and with enough; and a main question.
fn questions(pair: &mut Pair) -> Done {
    let knows: &[(u16, u16)] = &[(0, 0), (4, 4), (2, 2), (1, 1), (3, 3)];
    let unclear_knows: &[(u16, u16)] = &[(0, 1), (4, 4), (2, 2), (0, 1), (3, 3)];
    let question: &[(u16, u16)] = &[(1, 1), (5, 5), (3, 3), (2, 2), (4, 4)];
    let unclear_question: &[(u16, u16)] = &[(1, 2), (5, 5), (3, 3), (1, 2), (4, 4)];
    let main_question: &[(u16, u16)] = &[(3, 3), (0, 0), (1, 2), (6, 6)];
    for (text, sentence) in
        [(KNOWS, knows), (KNOWS, unclear_knows), (QUESTION, question), (QUESTION, unclear_question), (QUESTION, main_question)]
    {
        let given = Given::of_text(text, "C");
        let Some(made) = made(pair, &given) else { continue };
        let sentence: Vec<u32> = sentence.iter().map(|&(lowest, highest)| words(lowest, highest)).collect();
        for limits in [8, 9, 14, 15].map(|node_limit| (node_limit, 100_000)) {
            if !as_derivations(pair, &given, &made, &sentence, limits)? {
                return Err(counted_otherwise(&given, &sentence, limits, "the count is not compared with the derivations"));
            }
        }
    }
    Ok(())
}

#[cfg(test)]
mod tests {
    use super::*;
    use reference::Reference;

    /// The derivation of the source is counted by a grammar with all its rules, and not where the grammar lacks one: the comparison of
    /// counts alone finds it.
    #[test]
    fn found_by_counts_alone() {
        let given = Given::of_text(KNOWS, "C");
        let pair = &mut Pair::new(&Reference);
        let mut made = made(pair, &given).unwrap();
        let sentence = single_words(&[0, 4, 2, 1, 3]);
        assert!(as_derivations(pair, &given, &made, &sentence, (15, 100_000)).is_ok());
        assert_eq!(pair.tally.derivations_found(), 1);
        // the same lexicon without the complementizer that attracts
        let lexicon = given.lexicon[..48].to_vec();
        made.file = Given { lexicon, ..given.clone() }.file().unwrap();
        assert!(as_derivations(pair, &given, &made, &sentence, (15, 100_000)).is_err());
    }
}
