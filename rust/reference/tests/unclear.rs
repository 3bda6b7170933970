//! Paper 5 of document 02, "Words heard unclearly": what a place takes, refusals 11 and 29 in their order, and counts worked out by hand.

use reference::notation::{grammar_file, places, weighted_file};
use reference::program::output;
use reference::samples::{AGREEMENT, COPY};
use reference::sentence::{clear_sentences, single_words};
use reference::{word, words, Answer, Calls, Reference, Refusal, TreeCalls};

fn analysis(number: u8, place: usize) -> Answer {
    Answer::Refused(Refusal::analysis(number, place))
}

fn desk(number: u8) -> Answer {
    Answer::Refused(Refusal::desk(number))
}

/// Word 0 or word 1.
fn either() -> u32 {
    words(0, 1)
}

/// What every call that is given a sentence answers, with this list as trace and as tree. None of them changes its output.
fn refused_by_all(file: &[u8], sentence: &[u32], list: &[u16]) -> Answer {
    let mut out = [7; 96];
    let refused = Reference.check_trace(file, sentence, list);
    for other in [
        Reference.check_tree(file, sentence, list),
        Reference.weigh_trace(file, sentence, list),
        Reference.weigh_tree(file, sentence, list),
        Reference.trace_to_tree(file, sentence, list, &mut out),
        Reference.tree_to_trace(file, sentence, list, &mut out),
        Reference.count(file, sentence, 4, 1),
        Reference.entry(file, sentence, 4, 1, 9, &mut out),
    ] {
        assert_eq!(other, refused);
    }
    assert_eq!(out, [7; 96]);
    refused
}

/// Every range over five words and each of the words: ends included.
#[test]
fn what_a_place_takes() {
    let file = grammar_file("S <- 0\nS <- 1\nS <- 2\nS <- 3\nS <- 4");
    for (lowest, highest) in (0..5).flat_map(|lowest| (lowest..5).map(move |highest| (lowest, highest))) {
        let sentence = [words(lowest, highest)];
        for rule in 0..5 {
            let between = (lowest..=highest).contains(&rule);
            let (trace, tree) = if between { (Answer::Accepted(1), Answer::Accepted(1)) } else { (analysis(16, 0), analysis(22, 0)) };
            assert_eq!(Reference.check_trace(&file, &sentence, &[rule]), trace);
            assert_eq!(Reference.check_tree(&file, &sentence, &[rule]), tree);
        }
        let fitting = (highest - lowest + 1) as u32;
        assert_eq!(Reference.count(&file, &sentence, 1, 100), Answer::Counted { count: fitting, effort: 1 + fitting });
    }
}

/// The highest stands in the upper 16 bits.
#[test]
fn the_number_that_is_lent() {
    let file = grammar_file(COPY);
    assert_eq!(Reference.check_trace(&file, &[0x0001_0000, 0x0001_0000], &[0, 3, 5, 5]), Answer::Accepted(4));
    assert_eq!(Reference.check_trace(&file, &[0x0001_0000, 0x0001_0000], &[0, 4, 6, 6]), Answer::Accepted(4));
    assert_eq!(Reference.check_trace(&file, &[0x0001_0001, 0x0001_0001], &[0, 4, 6, 6]), Answer::Accepted(4));
    assert_eq!(Reference.check_trace(&file, &[0x0001_0000, 0x0000_0001], &[0, 3, 5, 5]), analysis(29, 1));
}

/// Words 255, 256, 257 and 4,095: their lower bits alone say nothing.
#[test]
fn words_of_more_than_eight_bits() {
    let file = grammar_file("S <- 0\nS <- 1\nS <- 255\nS <- 256\nS <- 257\nS <- 4095");
    let taken = |lowest: u16, highest: u16| -> Vec<u16> {
        (0..6).filter(|&rule| Reference.check_tree(&file, &[words(lowest, highest)], &[rule]) == Answer::Accepted(1)).collect()
    };
    assert_eq!(taken(0, 4095), [0, 1, 2, 3, 4, 5]);
    assert_eq!(taken(0, 256), [0, 1, 2, 3]);
    assert_eq!(taken(1, 256), [1, 2, 3]);
    assert_eq!(taken(255, 257), [2, 3, 4]);
    assert_eq!(taken(256, 256), [3]);
    assert_eq!(taken(258, 4094), []);
    assert_eq!(taken(4095, 4095), [5]);
}

#[test]
fn refusal_11_either_end() {
    let file = grammar_file(COPY);
    for wrong in [2, 3, 256, 4096, 65_534, 65_535] {
        for place in [words(0, wrong), words(1, wrong), words(wrong, 0), words(wrong, 1), word(wrong)] {
            assert_eq!(refused_by_all(&file, &[place], &[]), analysis(11, 0));
            assert_eq!(refused_by_all(&file, &[either(), word(1), place, word(0)], &[0; 97]), analysis(11, 2));
        }
    }
    assert_eq!(refused_by_all(&file, &[words(3, 2)], &[]), analysis(11, 0));
}

#[test]
fn refusal_29_lowest_above_highest() {
    let file = grammar_file(COPY);
    assert_eq!(refused_by_all(&file, &[words(1, 0)], &[]), analysis(29, 0));
    assert_eq!(refused_by_all(&file, &[word(0), word(1), words(1, 0)], &[0, 3, 5, 5]), analysis(29, 2));
    assert_eq!(refused_by_all(&file, &[either(), words(1, 0), words(1, 0)], &[0; 97]), analysis(29, 1));
    let file = grammar_file("S <- 4095");
    assert_eq!(refused_by_all(&file, &[words(4095, 0)], &[0]), analysis(29, 0));
    assert_eq!(refused_by_all(&file, &[words(256, 255)], &[0]), analysis(29, 0));
}

/// Place by place, 11 before 29 at the same place.
#[test]
fn order_of_11_and_29() {
    let file = grammar_file(COPY);
    let (right, above, no_word) = (either(), words(1, 0), words(0, 2));
    assert_eq!(refused_by_all(&file, &[words(2, 0)], &[]), analysis(11, 0));
    assert_eq!(refused_by_all(&file, &[above, no_word], &[]), analysis(29, 0));
    assert_eq!(refused_by_all(&file, &[no_word, above], &[]), analysis(11, 0));
    assert_eq!(refused_by_all(&file, &[right, above, no_word], &[]), analysis(29, 1));
    assert_eq!(refused_by_all(&file, &[right, no_word, above], &[]), analysis(11, 1));
    assert_eq!(refused_by_all(&file, &[right, above, words(2, 0)], &[]), analysis(29, 1));
    assert_eq!(refused_by_all(&file, &[right, words(2, 0), above], &[]), analysis(11, 1));
}

#[test]
fn the_longest_sentence() {
    let file = grammar_file(COPY);
    let mut places = vec![either(); 97];
    assert_eq!(refused_by_all(&file, &places, &[]), analysis(11, 96));
    // before 29 of any place
    places[0] = words(1, 0);
    assert_eq!(refused_by_all(&file, &places, &[]), analysis(11, 96));
    places[0] = either();
    for (last, number) in [(words(1, 0), 29), (words(0, 2), 11), (words(2, 0), 11)] {
        places[95] = last;
        assert_eq!(refused_by_all(&file, &places[..96], &[]), analysis(number, 95));
    }
    assert_eq!(Reference.check_trace(&file, &places[..95], &[0, 3, 5, 5]), analysis(18, 2));
}

/// The grammar and the desk's 23 and 24 before 29; 29 before 12 to 22, 25 and 26, as `refused_by_all` has it.
#[test]
fn where_29_stands() {
    let mut file = grammar_file(COPY);
    let sentence = [words(1, 0)];
    let mut out = [7; 96];
    assert_eq!(Reference.trace_to_tree(&file, &sentence, &[], &mut out[..95]), desk(23));
    assert_eq!(Reference.tree_to_trace(&file, &sentence, &[], &mut out[..95]), desk(23));
    assert_eq!(Reference.entry(&file, &sentence, 4, 1, 9, &mut out[..95]), desk(23));
    for (node_limit, effort_limit) in [(0, 1), (97, 1), (4, 0), (4, 1_000_000_001)] {
        assert_eq!(Reference.count(&file, &sentence, node_limit, effort_limit), desk(24));
        assert_eq!(Reference.entry(&file, &sentence, node_limit, effort_limit, 9, &mut out), desk(24));
    }
    file[2] = 9;
    assert_eq!(refused_by_all(&file, &sentence, &[]), Answer::Refused(Refusal::grammar(2, 0)));
    assert_eq!(out, [7; 96]);
}

/// The words 0 and 1 of the copy grammar, both unclear: 0 0 and 1 1 have an analysis each, 0 1 and 1 0 none.
#[test]
fn counted_by_hand() {
    let file = grammar_file(COPY);
    let sentence = [either(), either()];
    // the lists of no rules, 0, 0 3, 0 4, 0 3 5, 0 4 6, 0 3 5 5, 0 4 6 6
    assert_eq!(Reference.count(&file, &sentence, 4, 8), Answer::Counted { count: 2, effort: 8 });
    assert_eq!(Reference.count(&file, &sentence, 4, 7), desk(25));
    let mut out = [7; 96];
    for (m, trace) in [(0, [0, 3, 5, 5]), (1, [0, 4, 6, 6])] {
        assert_eq!(Reference.entry(&file, &sentence, 4, 8, m, &mut out), Answer::Accepted(4));
        assert_eq!(out[..4], trace);
        assert_eq!(Reference.check_trace(&file, &sentence, &trace), Answer::Accepted(4));
        assert_eq!(Reference.check_tree(&file, &sentence, &trace), Answer::Accepted(4));
    }
    assert_eq!(Reference.entry(&file, &sentence, 4, 8, 2, &mut out), desk(26));
    for (words, count, effort) in [([0, 0], 1, 6), ([0, 1], 0, 5), ([1, 0], 0, 5), ([1, 1], 1, 6)] {
        assert_eq!(Reference.count(&file, &single_words(&words), 4, 8), Answer::Counted { count, effort });
    }
}

/// "In dictionary order of rule numbers", not clear sentence by clear sentence: rule 0 has word 2.
#[test]
fn order_of_entries() {
    let file = grammar_file("S <- 2\nS <- 0\nS <- 1");
    let mut out = [7; 96];
    for m in 0..3 {
        assert_eq!(Reference.entry(&file, &[words(0, 2)], 1, 4, m, &mut out), Answer::Accepted(1));
        assert_eq!(out[0] as u64, m);
    }
    assert_eq!(Reference.entry(&file, &[words(0, 1)], 1, 3, 0, &mut out), Answer::Accepted(1));
    assert_eq!(out[0], 1);
}

/// A place past the word, by one, on either side.
#[test]
fn just_missed() {
    let file = grammar_file("S(xy) <- A(x) A(y)\nA <- 2\nA <- 0\nA <- 4");
    let trace = [0, 1, 1];
    for fitting in [words(2, 4), words(0, 2), words(1, 3), word(2)] {
        assert_eq!(Reference.check_trace(&file, &[fitting, fitting], &trace), Answer::Accepted(3));
        for missed in [words(3, 4), words(0, 1), word(1), word(3)] {
            assert_eq!(Reference.check_trace(&file, &[missed, fitting], &trace), analysis(16, 1));
            assert_eq!(Reference.check_trace(&file, &[fitting, missed], &trace), analysis(16, 2));
            for sentence in [[missed, fitting], [fitting, missed]] {
                assert_eq!(Reference.check_tree(&file, &sentence, &trace), analysis(22, 0));
            }
        }
    }
}

/// A fitting yield has the sentence's length.
#[test]
fn lengths_of_yields() {
    let file = grammar_file(COPY);
    let list = [0, 3, 5, 5];
    for (places, trace, tree) in [
        (0, analysis(16, 2), analysis(22, 0)),
        (1, analysis(16, 3), analysis(22, 0)),
        (2, Answer::Accepted(4), Answer::Accepted(4)),
        (3, analysis(18, 2), analysis(22, 0)),
        (96, analysis(18, 2), analysis(22, 0)),
    ] {
        let sentence = vec![either(); places];
        assert_eq!(Reference.check_trace(&file, &sentence, &list), trace);
        assert_eq!(Reference.check_tree(&file, &sentence, &list), tree);
    }
}

/// "lies within the ranges place by place": not in dictionary order as a whole, and not in another order of the places.
#[test]
fn place_by_place() {
    let file = grammar_file("S(xy) <- A(x) A(y)\nA <- 0\nA <- 1\nA <- 2\nA <- 3");
    let between = |list: &[u16]| {
        let sentence = [words(0, 2), words(1, 2)];
        let (trace, tree) = (Reference.check_trace(&file, &sentence, list), Reference.check_tree(&file, &sentence, list));
        assert_eq!(matches!(trace, Answer::Accepted(_)), matches!(tree, Answer::Accepted(_)));
        tree
    };
    // rule r + 1 gives word r
    for (a, b) in (0..4).flat_map(|a| (0..4).map(move |b| (a, b))) {
        let expected = if a <= 2 && (b == 1 || b == 2) { Answer::Accepted(3) } else { analysis(22, 0) };
        assert_eq!(between(&[0, a + 1, b + 1]), expected, "{a} {b}");
    }
}

/// "The empty word takes none": it leaves an unclear place to the next word.
#[test]
fn the_empty_word_takes_no_place() {
    let file = grammar_file("S(xy) <- S(x) S(y)\nS <- empty\nS <- 0\nS <- 1");
    let sentence = [either()];
    for list in [&[2][..], &[3], &[0, 1, 2], &[0, 3, 1]] {
        assert_eq!(Reference.check_trace(&file, &sentence, list), Answer::Accepted(list.len() as u32));
        assert_eq!(Reference.check_tree(&file, &sentence, list), Answer::Accepted(list.len() as u32));
    }
    for list in [&[1][..], &[0, 1, 1]] {
        assert_eq!(Reference.check_trace(&file, &sentence, list), analysis(18, 0));
        assert_eq!(Reference.check_tree(&file, &sentence, list), analysis(22, 0));
    }
    assert_eq!(Reference.check_trace(&file, &sentence, &[0, 2, 3]), analysis(16, 2));
    // no rules; 0, 1, 2, 3; 0 1, 0 2, 0 3; 0 1 1, 0 1 2, 0 1 3, 0 2 1, 0 3 1: of these 2, 3, 0 1 2, 0 1 3, 0 2 1 and 0 3 1 are analyses
    assert_eq!(Reference.count(&file, &sentence, 3, 13), Answer::Counted { count: 6, effort: 13 });
    assert_eq!(Reference.count(&file, &sentence, 3, 12), desk(25));
}

/// Every sentence of three places over the five words: the two sentences that agree have an analysis each.
#[test]
fn agreement() {
    let file = grammar_file(AGREEMENT);
    let ranges: &Vec<(u16, u16)> = &(0..5).flat_map(|lowest| (lowest..5).map(move |highest| (lowest, highest))).collect();
    for (&a, &b, &c) in ranges.iter().flat_map(|a| ranges.iter().flat_map(move |b| ranges.iter().map(move |c| (a, b, c)))) {
        let sentence = [a, b, c].map(|(lowest, highest)| words(lowest, highest));
        let holds = |(lowest, highest): (u16, u16), word: u16| lowest <= word && word <= highest;
        let agree = |noun: u16, verb: u16| (holds(a, 0) && holds(b, noun) && holds(c, verb)) as u32;
        let Answer::Counted { count, .. } = Reference.count(&file, &sentence, 5, 100) else { panic!("{sentence:?} is refused") };
        assert_eq!(count, agree(1, 3) + agree(2, 4), "{sentence:?}");
    }
}

/// K3 and K4 with every place unclear, and the sum of weights.
#[test]
fn conversions_and_sums() {
    let file = weighted_file(COPY, &[1, 10, 20, 40, 80, 160, 255]);
    let sentence = [either(); 4];
    let (trace, tree) = ([0, 1, 5, 4, 6, 5, 6], [0, 1, 5, 4, 6, 6, 5]);
    let mut out = [7; 96];
    assert_eq!(Reference.trace_to_tree(&file, &sentence, &trace, &mut out), Answer::Accepted(7));
    assert_eq!((&out[..7], &out[7..]), (&tree[..], &[7; 89][..]));
    let mut out = [7; 96];
    assert_eq!(Reference.tree_to_trace(&file, &sentence, &tree, &mut out), Answer::Accepted(7));
    assert_eq!((&out[..7], &out[7..]), (&trace[..], &[7; 89][..]));
    assert_eq!(Reference.weigh_trace(&file, &sentence, &trace), Answer::Accepted(921));
    assert_eq!(Reference.weigh_tree(&file, &sentence, &tree), Answer::Accepted(921));
}

/// The program's file has two bytes a word, and a pair of words is no range: 1 0 is not 29.
#[test]
fn the_program_keeps_single_words() {
    let printed = |sentence: &[u8]| String::from_utf8(output(&grammar_file(COPY), sentence)).unwrap();
    assert_eq!(printed(&[4, 1, 0, 1, 0]), "1 6\n0 4 6 6\n");
    assert_eq!(printed(&[4, 1, 0, 0, 0]), "0 5\n");
    assert_eq!(printed(&[4, 0, 0, 1, 0]), "0 5\n");
    assert_eq!(printed(&[4, 0, 0, 2, 0]), "R 11 1\n");
}

#[test]
fn places_in_writing() {
    assert_eq!(places(&[]), "");
    assert_eq!(places(&[word(0), words(1, 2), words(2, 1), word(65_535)]), "0 1-2 2-1 65535");
}

#[test]
fn clear_sentences_of_an_unclear_one() {
    assert_eq!(clear_sentences(&[]), [[]; 1]);
    assert_eq!(clear_sentences(&[word(3)]), [[word(3)]]);
    let expected = [[2, 0, 0], [2, 0, 1], [3, 0, 0], [3, 0, 1], [4, 0, 0], [4, 0, 1]].map(|words| single_words(&words));
    assert_eq!(clear_sentences(&[words(2, 4), word(0), words(0, 1)]), expected);
}
