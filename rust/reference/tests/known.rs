//! K1 to K10 of document 01, with sentences of single words.

use std::cmp::Ordering;

use reference::file::read;
use reference::notation::grammar_file;
use reference::program::{output, sentence_file};
use reference::queue::{compare, least, Prediction};
use reference::samples::{COPY, CROSSING, PAIR};
use reference::sentence::single_words;
use reference::trace::{step, State};
use reference::{Answer, Calls, Reference, Refusal, TreeCalls};

fn analysis(number: u8, place: usize) -> Answer {
    Answer::Refused(Refusal::analysis(number, place))
}

#[test]
fn k1_order_of_indices() {
    assert_eq!(compare(&vec![1, 0], &vec![2]), Ordering::Less);
    assert_eq!(compare(&vec![], &vec![0]), Ordering::Less);
    assert_eq!(compare(&vec![2], &vec![10]), Ordering::Less);
}

#[test]
fn k2_least_index() {
    let prediction = Prediction { category: 0, indices: vec![vec![3, 1], vec![2, 4, 0]], node: vec![] };
    assert_eq!(least(&prediction), &vec![2, 4, 0]);
}

/// The queue after the first steps of a trace, as categories and indices.
fn queue_after(text: &str, sentence: &[u32], steps: &[u16]) -> Vec<(usize, Vec<Vec<u8>>)> {
    let grammar = read(&grammar_file(text)).unwrap();
    let mut state = State::start(&grammar);
    for (k, &rule) in steps.iter().enumerate() {
        state = step(&grammar, sentence, &state, rule, k).unwrap();
    }
    state.queue.into_iter().map(|prediction| (prediction.category, prediction.indices)).collect()
}

#[test]
fn k3_trace_of_the_copy_grammar() {
    let sentence = single_words(&[0, 1, 0, 1]);
    let trace = [0, 1, 5, 4, 6, 5, 6];
    assert_eq!(Reference.check_trace(&grammar_file(COPY), &sentence, &trace), Answer::Accepted(7));
    let queue = queue_after(COPY, &sentence, &trace[..4]);
    assert_eq!(queue, [(3, vec![vec![0, 1]]), (2, vec![vec![1, 0]]), (3, vec![vec![1, 1]])]);
}

#[test]
fn k4_tree_of_that_trace() {
    let file = grammar_file(COPY);
    let (sentence, trace, tree) = (single_words(&[0, 1, 0, 1]), [0, 1, 5, 4, 6, 5, 6], [0, 1, 5, 4, 6, 6, 5]);
    let mut out = [7; 100];
    assert_eq!(Reference.trace_to_tree(&file, &sentence, &trace, &mut out), Answer::Accepted(7));
    assert_eq!((&out[..7], &out[7..]), (&tree[..], &[7; 93][..]));
    let mut out = [7; 96];
    assert_eq!(Reference.tree_to_trace(&file, &sentence, &tree, &mut out), Answer::Accepted(7));
    assert_eq!((&out[..7], &out[7..]), (&trace[..], &[7; 89][..]));
    assert_eq!(Reference.check_trace(&file, &sentence, &tree), analysis(15, 5));
}

#[test]
fn k5_count_and_effort() {
    let file = grammar_file(COPY);
    let sentence = single_words(&[0, 1, 0, 1]);
    assert_eq!(Reference.count(&file, &sentence, 7, 13), Answer::Counted { count: 1, effort: 13 });
    assert_eq!(Reference.count(&file, &sentence, 7, 12), Answer::Refused(Refusal::desk(25)));
}

#[test]
fn k6_a_lower_node_limit() {
    let answer = Reference.count(&grammar_file(COPY), &single_words(&[0, 1, 0, 1]), 6, 1000);
    assert_eq!(answer, Answer::Counted { count: 0, effort: 8 });
}

#[test]
fn k7_words_of_a_trace() {
    let file = grammar_file(COPY);
    let trace = [0, 3, 5, 5];
    assert_eq!(Reference.check_trace(&file, &single_words(&[0, 0]), &trace), Answer::Accepted(4));
    assert_eq!(Reference.check_trace(&file, &single_words(&[0, 1]), &trace), analysis(16, 3));
    assert_eq!(Reference.check_trace(&file, &single_words(&[0, 0, 0]), &trace), analysis(18, 2));
}

#[test]
fn k8_length_of_a_trace() {
    let file = grammar_file(COPY);
    assert_eq!(Reference.check_trace(&file, &single_words(&[0, 0]), &[0, 1, 5]), analysis(17, 2));
    assert_eq!(Reference.check_trace(&file, &single_words(&[0, 0]), &[0, 3, 5, 5, 5]), analysis(14, 4));
}

#[test]
fn k9_trees() {
    let file = grammar_file(COPY);
    assert_eq!(Reference.check_tree(&file, &single_words(&[0, 0]), &[0, 3, 5]), analysis(19, 3));
    assert_eq!(Reference.check_tree(&file, &single_words(&[0, 0]), &[0, 3, 5, 6]), analysis(20, 3));
    assert_eq!(Reference.check_tree(&file, &single_words(&[0, 0]), &[0, 3, 5, 5, 5]), analysis(21, 4));
    assert_eq!(Reference.check_tree(&file, &single_words(&[0, 0]), &[0, 3, 5, 5]), Answer::Accepted(4));
}

#[test]
fn k10_what_the_program_prints() {
    let printed = output(&grammar_file(PAIR), &sentence_file(5, &[0, 0, 0]));
    assert_eq!(String::from_utf8(printed).unwrap(), "2 12\n0 0 1 1 1\n0 1 0 1 1\n");
}

/// The worked example of the source, section 4.1. Its step 8 drops a digit at a scan, ours does not.
#[test]
fn worked_example_of_the_source() {
    let sentence = single_words(&[0, 1, 1, 2, 3, 3]);
    let trace = [0, 2, 5, 3, 6, 4, 6, 7, 8, 8];
    let queue = |steps: usize| queue_after(CROSSING, &sentence, &trace[..steps]);
    let [ac, bd, a, c, b, d] = [1, 2, 3, 4, 5, 6];
    assert_eq!(queue(1), [(ac, vec![vec![0], vec![2]]), (bd, vec![vec![1], vec![3]])]);
    assert_eq!(queue(2), [(a, vec![vec![0]]), (bd, vec![vec![1], vec![3]]), (c, vec![vec![2]])]);
    assert_eq!(queue(4), [(b, vec![vec![1, 0]]), (bd, vec![vec![1, 1], vec![3, 1]]), (c, vec![vec![2]]), (d, vec![vec![3, 0]])]);
    assert_eq!(queue(6), [(b, vec![vec![1, 1]]), (c, vec![vec![2]]), (d, vec![vec![3, 0]]), (d, vec![vec![3, 1]])]);
    assert_eq!(queue(8), [(d, vec![vec![3, 0]]), (d, vec![vec![3, 1]])]);
    assert_eq!(queue(10), []);
    assert_eq!(Reference.check_trace(&grammar_file(CROSSING), &sentence, &trace), Answer::Accepted(10));
}
