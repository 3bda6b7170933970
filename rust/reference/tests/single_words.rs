//! "A sentence of single words has the answers it had before" (document 02, paper 5): the tests of words as document 01 has them, without
//! ranges, beside those of places.

use reference::file::read;
use reference::grammar::{Body, Grammar};
use reference::notation::grammar_file;
use reference::queue::apply;
use reference::samples::SMALL;
use reference::sentence::{fits, single_words, takes, test_sentence};
use reference::trace::State;
use reference::tree::{yield_of, Tree};
use reference::{word, Answer, Calls, Reference, Refusal, TreeCalls};

fn analysis(number: u8, place: usize) -> Refusal {
    Refusal::analysis(number, place)
}

/// All lists of at most this many of these numbers.
fn lists(numbers: &[u16], most: usize) -> Vec<Vec<u16>> {
    let mut all = vec![vec![]];
    for _ in 0..most {
        let longer: Vec<Vec<u16>> =
            all.iter().flat_map(|list: &Vec<u16>| numbers.iter().map(|&number| [&list[..], &[number]].concat())).collect();
        all.extend(longer);
        all.sort();
        all.dedup();
    }
    all
}

/// 11 of document 01: "sentence over 96 words (place 96, tested first), or no such word (place of the first)".
fn test_words(grammar: &Grammar, sentence: &[u16]) -> Result<(), Refusal> {
    if sentence.len() > 96 {
        return Err(analysis(11, 96));
    }
    match sentence.iter().position(|&word| word as usize >= grammar.words) {
        Some(place) => Err(analysis(11, place)),
        None => Ok(()),
    }
}

/// 13 to 16 of document 01, "the word must be the next one (the empty word takes none)", or the state after the step.
fn step(grammar: &Grammar, sentence: &[u16], state: &State, rule: u16, k: usize) -> Result<State, Refusal> {
    let Some(applied) = grammar.rules.get(rule as usize) else { return Err(analysis(13, k)) };
    let Some(front) = state.queue.first() else { return Err(analysis(14, k)) };
    if applied.category != front.category {
        return Err(analysis(15, k));
    }
    let mut read = state.read;
    if let Body::Lexical(Some(word)) = applied.body {
        if sentence.get(read) != Some(&word) {
            return Err(analysis(16, k));
        }
        read += 1;
    }
    Ok(State { queue: apply(grammar, &state.queue, applied), read })
}

fn check_trace(grammar: &Grammar, sentence: &[u16], trace: &[u16]) -> Result<usize, Refusal> {
    test_words(grammar, sentence)?;
    let n = trace.len();
    if n == 0 {
        return Err(analysis(17, 0));
    }
    let mut state = State::start(grammar);
    for (k, &rule) in trace.iter().enumerate() {
        state = step(grammar, sentence, &state, rule, k)?;
        if state.queue.len() > n - k - 1 {
            return Err(analysis(17, k + 1));
        }
    }
    if state.read != sentence.len() {
        return Err(analysis(18, state.read));
    }
    Ok(n)
}

/// Count and effort of the prefixes that begin with the one that led to this state in so many steps.
fn count_from(grammar: &Grammar, sentence: &[u16], node_limit: usize, steps: usize, state: &State) -> (u32, u32) {
    if steps + state.queue.len() > node_limit {
        return (0, 0);
    }
    let (mut count, mut effort) = ((state.queue.is_empty() && state.read == sentence.len()) as u32, 1);
    for rule in 0..grammar.rules.len() as u16 {
        if let Ok(next) = step(grammar, sentence, state, rule, steps) {
            let more = count_from(grammar, sentence, node_limit, steps + 1, &next);
            (count, effort) = (count + more.0, effort + more.1);
        }
    }
    (count, effort)
}

/// The tree of a list from this place on, and the place after it; nothing where the list is none.
fn tree_from(grammar: &Grammar, list: &[u16], at: usize, wanted: usize) -> Option<(Tree, usize)> {
    let number = *list.get(at)?;
    let rule = grammar.rules.get(number as usize).filter(|rule| rule.category == wanted)?;
    let (mut daughters, mut after) = (vec![], at + 1);
    if let Body::Nonlexical { daughters: categories, .. } = &rule.body {
        for &category in categories {
            let (node, next) = tree_from(grammar, list, after, category)?;
            daughters.push(node);
            after = next;
        }
    }
    Some((Tree { rule: number, daughters }, after))
}

fn answer(outcome: Result<usize, Refusal>) -> Answer {
    outcome.map_or_else(Answer::Refused, |value| Answer::Accepted(value as u32))
}

/// Numbers around the borders of bytes, of the word count and of the field.
const NUMBERS: [u16; 15] = [0, 1, 2, 127, 128, 255, 256, 257, 511, 4094, 4095, 4096, 32_768, 65_534, 65_535];

#[test]
fn a_place_of_one_word_takes_that_word_alone() {
    for (a, b) in NUMBERS.into_iter().flat_map(|a| NUMBERS.map(|b| (a, b))) {
        assert_eq!(takes(word(a), b), a == b, "{a} {b}");
    }
}

#[test]
fn yields_fit_as_before() {
    let all = lists(&[0, 1, 2, 256], 3);
    for (string, sentence) in all.iter().flat_map(|string| all.iter().map(move |sentence| (string, sentence))) {
        assert_eq!(fits(string, &single_words(sentence)), string == sentence, "{string:?} {sentence:?}");
    }
}

#[test]
fn sentences_are_refused_as_before() {
    for text in SMALL {
        let grammar = read(&grammar_file(text)).unwrap();
        for sentence in lists(&NUMBERS, 2).into_iter().chain([0, 1, 4096].into_iter().flat_map(|last| [95, 96].map(|n| long(n, last)))) {
            assert_eq!(test_sentence(&grammar, &single_words(&sentence)), test_words(&grammar, &sentence), "{text} {sentence:?}");
        }
    }
}

/// So many times word 0, and then this one.
fn long(n: usize, last: u16) -> Vec<u16> {
    [&vec![0; n][..], &[last]].concat()
}

#[test]
fn traces_are_checked_as_before() {
    let mut accepted = 0;
    for text in SMALL {
        let file = grammar_file(text);
        let grammar = read(&file).unwrap();
        let rules: Vec<u16> = (0..grammar.rules.len() as u16).collect();
        let sentences = lists(&[0, 1], 3);
        for (trace, sentence) in lists(&rules, 4).iter().flat_map(|trace| sentences.iter().map(move |sentence| (trace, sentence))) {
            let before = answer(check_trace(&grammar, sentence, trace));
            assert_eq!(Reference.check_trace(&file, &single_words(sentence), trace), before, "{text} {sentence:?} {trace:?}");
            accepted += matches!(before, Answer::Accepted(_)) as u32;
        }
    }
    assert!(accepted > 40, "{accepted}");
}

#[test]
fn trees_are_checked_as_before() {
    let mut accepted = 0;
    for text in SMALL {
        let file = grammar_file(text);
        let grammar = read(&file).unwrap();
        let rules: Vec<u16> = (0..grammar.rules.len() as u16).collect();
        let words: Vec<u16> = (0..grammar.words as u16).collect();
        for list in lists(&rules, 4) {
            let Some((tree, _)) = tree_from(&grammar, &list, 0, grammar.start).filter(|(_, after)| *after == list.len()) else { continue };
            for sentence in lists(&words, 3) {
                let derives = yield_of(&grammar, &tree) == [&sentence[..]];
                let before = if derives { Ok(list.len()) } else { Err(analysis(22, 0)) };
                assert_eq!(Reference.check_tree(&file, &single_words(&sentence), &list), answer(before), "{text} {sentence:?} {list:?}");
                accepted += derives as u32;
            }
        }
    }
    assert!(accepted > 40, "{accepted}");
}

#[test]
fn counts_are_as_before() {
    let mut counted = 0;
    for text in SMALL {
        let file = grammar_file(text);
        let grammar = read(&file).unwrap();
        let words: Vec<u16> = (0..grammar.words as u16).collect();
        for sentence in lists(&words, 4) {
            for node_limit in [1, 4, 6, 7] {
                let (count, effort) = count_from(&grammar, &sentence, node_limit, 0, &State::start(&grammar));
                let answer = Reference.count(&file, &single_words(&sentence), node_limit as u64, 1_000_000);
                assert_eq!(answer, Answer::Counted { count, effort }, "{text} {sentence:?} {node_limit}");
                counted += count;
            }
        }
    }
    assert!(counted > 1_000, "{counted}");
}
