//! Paper 1 of document 02, "A weight on each rule": every weight, sums worked out by hand, and all that weights do not change.

use reference::notation::{grammar_file, parts, put_weights, weighted_file};
use reference::record::{RECORD, WEIGHT};
use reference::samples::{CHAIN, COPY, SMALL};
use reference::sentence::single_words;
use reference::{Answer, Calls, Reference, TreeCalls};

#[test]
fn every_weight_on_every_rule() {
    for r in 0..7 {
        for weight in 0..=255 {
            let mut weights = [0; 7];
            weights[r] = weight;
            let file = weighted_file(COPY, &weights);
            assert_eq!(Reference.read_grammar(&file), Answer::Accepted(7));
            // the trace and the tree of K3 and K4: rules 5 and 6 twice, rules 0, 1 and 4 once, rules 2 and 3 not at all
            let sum = Answer::Accepted([1, 1, 0, 0, 1, 2, 2][r] * weight as u32);
            assert_eq!(Reference.weigh_trace(&file, &single_words(&[0, 1, 0, 1]), &[0, 1, 5, 4, 6, 5, 6]), sum);
            assert_eq!(Reference.weigh_tree(&file, &single_words(&[0, 1, 0, 1]), &[0, 1, 5, 4, 6, 6, 5]), sum);
        }
    }
}

/// 256 rules in thirteen rule blocks, each with a weight of its own.
#[test]
fn weights_in_every_block() {
    let text: String = (0..256).map(|word| format!("S <- {word}\n")).collect();
    let weights: Vec<u8> = (0..=255).rev().collect();
    let file = weighted_file(&text, &weights);
    for r in 0..256 {
        let sum = Answer::Accepted(255 - r as u32);
        assert_eq!(Reference.weigh_trace(&file, &single_words(&[r]), &[r]), sum);
        assert_eq!(Reference.weigh_tree(&file, &single_words(&[r]), &[r]), sum);
    }
}

#[test]
fn sums_of_the_copy_grammar() {
    let file = weighted_file(COPY, &[1, 10, 20, 40, 80, 160, 255]);
    // 1 + 10 + 160 + 80 + 255 + 160 + 255
    assert_eq!(Reference.weigh_trace(&file, &single_words(&[0, 1, 0, 1]), &[0, 1, 5, 4, 6, 5, 6]), Answer::Accepted(921));
    // 1 + 10 + 160 + 80 + 255 + 255 + 160
    assert_eq!(Reference.weigh_tree(&file, &single_words(&[0, 1, 0, 1]), &[0, 1, 5, 4, 6, 6, 5]), Answer::Accepted(921));
    // 1 + 40 + 160 + 160
    assert_eq!(Reference.weigh_trace(&file, &single_words(&[0, 0]), &[0, 3, 5, 5]), Answer::Accepted(361));
    assert_eq!(Reference.weigh_tree(&file, &single_words(&[0, 0]), &[0, 3, 5, 5]), Answer::Accepted(361));
    // 1 + 20 + 255 + 80 + 255 + 255 + 255
    assert_eq!(Reference.weigh_trace(&file, &single_words(&[1, 1, 1, 1]), &[0, 2, 6, 4, 6, 6, 6]), Answer::Accepted(1121));
    assert_eq!(Reference.weigh_tree(&file, &single_words(&[1, 1, 1, 1]), &[0, 2, 6, 4, 6, 6, 6]), Answer::Accepted(1121));
}

/// 96 times 255: the longest analysis with the highest weights.
#[test]
fn the_highest_sum() {
    let file = weighted_file(CHAIN, &[255; 4]);
    let mut list = [0; 96];
    list[95] = 2;
    assert_eq!(Reference.weigh_trace(&file, &single_words(&[0]), &list), Answer::Accepted(24_480));
    assert_eq!(Reference.weigh_tree(&file, &single_words(&[0]), &list), Answer::Accepted(24_480));
}

#[test]
fn no_weights_no_sum() {
    let file = grammar_file(COPY);
    assert_eq!(Reference.weigh_trace(&file, &single_words(&[0, 1, 0, 1]), &[0, 1, 5, 4, 6, 5, 6]), Answer::Accepted(0));
    assert_eq!(Reference.weigh_tree(&file, &single_words(&[0, 1, 0, 1]), &[0, 1, 5, 4, 6, 6, 5]), Answer::Accepted(0));
}

/// The writer takes byte 23 as it is, and nothing else of the file changes but the checks.
#[test]
fn weights_are_written() {
    let (heading, mut records) = parts(COPY);
    put_weights(&mut records, [9, 0, 255, 1, 128, 7, 200].into_iter());
    let mut out = [7; 1024];
    assert_eq!(Reference.write_grammar(&heading, &records, &mut out), Answer::Accepted(1024));
    assert_eq!(out[512 + 4..512 + 4 + 7 * RECORD], records[..]);
    let without = grammar_file(COPY);
    let differ: Vec<usize> = (0..1020).filter(|&i| out[i] != without[i]).collect();
    let weights: Vec<usize> = [0, 2, 3, 4, 5, 6].map(|r| 512 + 4 + RECORD * r + WEIGHT).to_vec();
    assert_eq!(differ, weights);
}

/// What every call but the weighing ones answers and writes for this file.
fn other_answers(file: &[u8], sentence: &[u32], list: &[u16]) -> (Vec<Answer>, [[u16; 96]; 4]) {
    let mut out = [[7; 96]; 4];
    let answers = vec![
        Reference.read_grammar(file),
        Reference.check_trace(file, sentence, list),
        Reference.check_tree(file, sentence, list),
        Reference.trace_to_tree(file, sentence, list, &mut out[0]),
        Reference.tree_to_trace(file, sentence, list, &mut out[1]),
        Reference.count(file, sentence, 8, 500),
        Reference.entry(file, sentence, 8, 500, 0, &mut out[2]),
        Reference.survey(file, &mut out[3]),
    ];
    (answers, out)
}

#[test]
fn weights_change_no_other_answer() {
    for text in SMALL {
        let without = grammar_file(text);
        for weights in [[1; 12], [255; 12], [0, 9, 0, 80, 3, 255, 0, 0, 7, 1, 1, 2]] {
            let with = weighted_file(text, &weights);
            for sentence in [&[][..], &[0], &[0, 0], &[0, 1, 0, 1], &[9]].map(single_words) {
                for list in [&[][..], &[1], &[2], &[0, 3, 5, 5], &[0, 1, 1], &[0, 1, 5, 4, 6, 5, 6], &[0, 1, 5, 4, 6, 6, 5]] {
                    assert_eq!(
                        other_answers(&with, &sentence, list),
                        other_answers(&without, &sentence, list),
                        "{text} {sentence:?} {list:?}"
                    );
                }
            }
        }
    }
}
