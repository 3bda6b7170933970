//! Trees against live prefixes: the number of trees is the number of complete live prefixes, and their traces are those prefixes; and
//! unclear sentences against the clear ones within their ranges.

use std::collections::BTreeSet;

use reference::file::read;
use reference::grammar::Grammar;
use reference::listing::traces_of_trees;
use reference::live::live_prefixes;
use reference::notation::{grammar_file, weighted_file};
use reference::samples::{AGREEMENT, SMALL, TWELVE};
use reference::sentence::clear_sentences;
use reference::survey::{least_heights, survey_is_right};
use reference::trace::{step, State};
use reference::{word, words, Answer, Calls, Reference, TreeCalls};

/// A place for each of the first words.
fn single(number: usize) -> Vec<u32> {
    (0..number as u16).map(word).collect()
}

/// A place for each range over the first words.
fn ranges(number: usize) -> Vec<u32> {
    let number = number as u16;
    (0..number).flat_map(|lowest| (lowest..number).map(move |highest| words(lowest, highest))).collect()
}

/// All sentences of at most this many of these places.
fn sentences(places: &[u32], most: usize) -> Vec<Vec<u32>> {
    let mut all = vec![vec![]];
    let mut from = 0;
    for _ in 0..most {
        let to = all.len();
        for i in from..to {
            for &place in places {
                let mut longer: Vec<u32> = all[i].clone();
                longer.push(place);
                all.push(longer);
            }
        }
        from = to;
    }
    all
}

/// Compares trees and live prefixes for sentences of at most four of these places: how many listings, and how many analyses.
fn trees_and_live_prefixes(places: impl Fn(&Grammar) -> Vec<u32>) -> (usize, usize) {
    let mut compared = 0;
    let mut found = 0;
    for text in SMALL {
        let grammar = read(&grammar_file(text)).unwrap();
        for sentence in sentences(&places(&grammar), 4) {
            for node_limit in [1, 2, 4, 5, 6, 7, 9, 10, 12] {
                let Some(live) = live_prefixes(&grammar, &sentence, node_limit, 20_000) else { continue };
                let Some(traces) = traces_of_trees(&grammar, &sentence, node_limit, 100_000) else { continue };
                assert_eq!(traces.len(), live.complete.len(), "{text} {sentence:?} {node_limit}");
                assert_eq!(traces, live.complete, "{text} {sentence:?} {node_limit}");
                compared += 1;
                found += traces.len();
            }
        }
    }
    println!("{compared} listings, {found} analyses");
    (compared, found)
}

#[test]
fn as_many_trees_as_complete_live_prefixes() {
    let (compared, found) = trees_and_live_prefixes(|grammar| single(grammar.words.min(3)));
    assert!(compared > 2_000 && found > 20_000);
}

#[test]
fn as_many_trees_as_complete_live_prefixes_of_unclear_sentences() {
    let (compared, found) = trees_and_live_prefixes(|grammar| ranges(grammar.words.min(2)));
    assert!(compared > 2_000 && found > 20_000);
}

/// All live prefixes that begin with this one.
fn live_from(grammar: &Grammar, sentence: &[u32], node_limit: usize, prefix: Vec<u16>, state: State) -> BTreeSet<Vec<u16>> {
    if prefix.len() + state.queue.len() > node_limit {
        return BTreeSet::new();
    }
    let mut live = BTreeSet::from([prefix.clone()]);
    for rule in 0..grammar.rules.len() as u16 {
        if let Ok(next) = step(grammar, sentence, &state, rule, prefix.len()) {
            live.extend(live_from(grammar, sentence, node_limit, [&prefix[..], &[rule]].concat(), next));
        }
    }
    live
}

/// The live prefixes of an unclear sentence are those of the clear ones within its ranges, and so are its analyses.
#[test]
fn unclear_sentences_and_clear_ones() {
    for (text, most, node_limits) in SMALL.map(|text| (text, 3, [4, 5, 7])).into_iter().chain([(AGREEMENT, 3, [3, 4, 5])]) {
        let grammar = read(&grammar_file(text)).unwrap();
        for sentence in sentences(&ranges(grammar.words.min(3)), most) {
            for node_limit in node_limits {
                let live_of = |sentence: &[u32]| live_from(&grammar, sentence, node_limit, vec![], State::start(&grammar));
                let listing_of = |sentence: &[u32]| live_prefixes(&grammar, sentence, node_limit, 20_000).unwrap();
                let clear = clear_sentences(&sentence);
                let together: BTreeSet<Vec<u16>> = clear.iter().flat_map(|clear| live_of(clear)).collect();
                assert_eq!(live_of(&sentence), together, "{text} {sentence:?} {node_limit}");
                let unclear = listing_of(&sentence);
                assert_eq!(unclear.effort, together.len() as u64, "{text} {sentence:?} {node_limit}");
                let mut complete: Vec<Vec<u16>> = clear.iter().flat_map(|clear| listing_of(clear).complete).collect();
                complete.sort();
                assert_eq!(unclear.complete, complete, "{text} {sentence:?} {node_limit}");
            }
        }
    }
}

#[test]
fn six_words_of_twelve_variables() {
    let grammar = read(&grammar_file(TWELVE)).unwrap();
    for sentence in sentences(&single(2), 6).iter().filter(|sentence| sentence.len() == 6) {
        let live = live_prefixes(&grammar, sentence, 10, 20_000).unwrap();
        assert_eq!(traces_of_trees(&grammar, sentence, 10, 100_000).unwrap(), live.complete);
        assert_eq!(live.complete.len(), 8);
    }
}

#[test]
fn round_trips_of_the_listing() {
    // all different, and no rule's own number
    let weights: Vec<u8> = (0..20).map(|rule| 255 - 11 * rule).collect();
    for text in SMALL {
        let file = weighted_file(text, &weights);
        let grammar = read(&file).unwrap();
        for sentence in sentences(&ranges(grammar.words.min(2)), 4) {
            let Some(live) = live_prefixes(&grammar, &sentence, 10, 2_000) else { continue };
            for trace in live.complete.iter().take(40) {
                let n = Answer::Accepted(trace.len() as u32);
                let (mut tree, mut back) = ([7; 96], [7; 96]);
                assert_eq!(Reference.trace_to_tree(&file, &sentence, trace, &mut tree), n);
                assert_eq!(Reference.tree_to_trace(&file, &sentence, &tree[..trace.len()], &mut back), n);
                assert_eq!(&back[..trace.len()], trace);
                let sum = Answer::Accepted(trace.iter().map(|&rule| weights[rule as usize] as u32).sum());
                assert_eq!(Reference.weigh_trace(&file, &sentence, trace), sum);
                assert_eq!(Reference.weigh_tree(&file, &sentence, &tree[..trace.len()]), sum);
            }
        }
    }
}

#[test]
fn survey_figures() {
    let file = grammar_file("S(xy) <- P(x,y)\nP(x,y) <- Q(x) A(y)\nQ(x) <- A(x)\nA <- 0\nX(x) <- X(x)\nY(x) <- X(x)\nX(xy) <- A(x) Y(y)");
    assert_eq!(least_heights(&read(&file).unwrap()), [4, 3, 2, 1, 0, 0]);
    assert!(survey_is_right(&file, &[4, 3, 2, 1, 0, 0]));
    assert!(survey_is_right(&file, &[6, 6, 6, 6, 0, 0]));
    assert!(!survey_is_right(&file, &[3, 3, 2, 1, 0, 0]));
    assert!(!survey_is_right(&file, &[4, 3, 2, 7, 0, 0]));
    assert!(!survey_is_right(&file, &[4, 3, 2, 0, 0, 0]));
    assert!(!survey_is_right(&file, &[4, 3, 2, 1, 6, 0]));
    assert!(!survey_is_right(&file, &[4, 3, 2, 1, 0]));
    let mut out = [7; 96];
    assert_eq!(Reference.survey(&file, &mut out), Answer::Accepted(6));
    assert_eq!((&out[..6], &out[6..]), (&[4, 3, 2, 1, 0, 0][..], &[7; 90][..]));
}
