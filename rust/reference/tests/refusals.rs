//! Every refusal of document 01 at least once, with its place and whose it is, as paper 1 of document 02 has them; `doubles.rs` has 10 as
//! paper 4 has it, `unclear.rs` 11 and 29 as paper 5 has them.

use reference::file::{check, BLOCK};
use reference::notation::{grammar_file, parts, weighted_file};
use reference::program::{output, sentence_file};
use reference::samples::{COPY, PAIR};
use reference::sentence::single_words;
use reference::{Answer, Calls, Reference, Refusal, TreeCalls};

fn grammar(number: u8, place: usize) -> Answer {
    Answer::Refused(Refusal::grammar(number, place))
}

fn analysis(number: u8, place: usize) -> Answer {
    Answer::Refused(Refusal::analysis(number, place))
}

fn desk(number: u8) -> Answer {
    Answer::Refused(Refusal::desk(number))
}

/// The file with some bytes put in and its checks made right again.
fn with_bytes(text: &str, bytes: &[(usize, u8)]) -> Vec<u8> {
    let mut file = grammar_file(text);
    for &(at, byte) in bytes {
        file[at] = byte;
    }
    for block in file.chunks_mut(BLOCK) {
        let sum = check(block);
        block[508..].copy_from_slice(&sum.to_le_bytes());
    }
    file
}

fn read_with(bytes: &[(usize, u8)]) -> Answer {
    Reference.read_grammar(&with_bytes(COPY, bytes))
}

/// Byte i of rule r's record, in the file of the copy grammar.
fn at(r: usize, i: usize) -> usize {
    BLOCK + 4 + 24 * r + i
}

/// 43 rules in three rule blocks: words 0 to 42 of one category.
fn long_grammar() -> String {
    (0..43).map(|word| format!("S <- {word}\n")).collect()
}

#[test]
fn accepted() {
    assert_eq!(Reference.read_grammar(&grammar_file(COPY)), Answer::Accepted(7));
    assert_eq!(Reference.read_grammar(&grammar_file(&long_grammar())), Answer::Accepted(43));
}

#[test]
fn refusal_1_length() {
    let file = grammar_file(COPY);
    assert_eq!(Reference.read_grammar(&[]), grammar(1, 0));
    assert_eq!(Reference.read_grammar(&file[..1023]), grammar(1, 0));
    assert_eq!(Reference.read_grammar(&[0; 15 * BLOCK]), grammar(1, 0));
    assert_eq!(Reference.read_grammar(&[0; 14 * BLOCK]), grammar(3, 0));
}

#[test]
fn refusal_2_check() {
    let mut file = grammar_file(COPY);
    file[508] ^= 1;
    assert_eq!(Reference.read_grammar(&file), grammar(2, 0));
    let mut file = grammar_file(COPY);
    file[2] = 9;
    file[BLOCK + 100] ^= 1;
    assert_eq!(Reference.read_grammar(&file), grammar(2, 0));
    let sum = check(&file[..BLOCK]);
    file[508..BLOCK].copy_from_slice(&sum.to_le_bytes());
    assert_eq!(Reference.read_grammar(&file), grammar(2, 1));
}

#[test]
fn refusal_3_block_number_or_kind() {
    assert_eq!(read_with(&[(2, 2)]), grammar(3, 0));
    assert_eq!(read_with(&[(0, 1)]), grammar(3, 0));
    assert_eq!(read_with(&[(BLOCK, 0)]), grammar(3, 1));
    assert_eq!(read_with(&[(BLOCK + 1, 1)]), grammar(3, 1));
    assert_eq!(read_with(&[(BLOCK + 2, 1), (3, 0)]), grammar(3, 1));
}

#[test]
fn refusal_4_heading() {
    let wrong: [&[(usize, u8)]; 13] = [
        &[(3, 0)],
        &[(3, 65)],
        &[(4, 4)],
        &[(4, 1)],
        &[(5, 0)],
        &[(5, 1), (6, 16)],
        &[(7, 0)],
        &[(7, 1), (8, 1)],
        &[(17, 0)],
        &[(17, 5)],
        &[(20, 1)],
        &[(9, 1)],
        &[(507, 1)],
    ];
    for bytes in wrong {
        assert_eq!(read_with(bytes), grammar(4, 0), "{bytes:?}");
    }
    assert_eq!(read_with(&[(5, 0), (6, 16)]), Answer::Accepted(7));
}

#[test]
fn refusal_5_blocks_and_record_counts() {
    assert_eq!(read_with(&[(7, 22)]), grammar(5, 0));
    assert_eq!(read_with(&[(7, 8)]), grammar(5, 1));
    assert_eq!(read_with(&[(BLOCK + 3, 21)]), grammar(5, 1));
    assert_eq!(Reference.read_grammar(&with_bytes(&long_grammar(), &[(2 * BLOCK + 3, 20)])), grammar(5, 2));
    assert_eq!(Reference.read_grammar(&with_bytes(&long_grammar(), &[(3 * BLOCK + 3, 2)])), grammar(5, 3));
}

#[test]
fn refusal_6_category_or_daughters() {
    assert_eq!(read_with(&[(at(6, 0), 4)]), grammar(6, 6));
    assert_eq!(read_with(&[(at(0, 1), 4)]), grammar(6, 0));
    assert_eq!(read_with(&[(at(1, 4), 4)]), grammar(6, 1));
}

#[test]
fn refusal_7_lexical() {
    assert_eq!(read_with(&[(at(5, 0), 1)]), grammar(7, 5));
    assert_eq!(read_with(&[(at(6, 5), 2)]), grammar(7, 6));
    assert_eq!(read_with(&[(at(6, 5), 254), (at(6, 6), 255)]), grammar(7, 6));
    assert_eq!(read_with(&[(at(6, 5), 255), (at(6, 6), 255)]), Answer::Accepted(7));
}

#[test]
fn refusal_8_variables() {
    assert_eq!(read_with(&[(at(0, 11), 1)]), grammar(8, 0));
    assert_eq!(read_with(&[(at(0, 11), 4)]), grammar(8, 0));
    assert_eq!(read_with(&[(at(0, 7), 3)]), grammar(8, 0));
    assert_eq!(read_with(&[(at(0, 7), 1)]), grammar(8, 0));
    assert_eq!(read_with(&[(at(1, 7), 0), (at(1, 8), 4)]), Answer::Accepted(7));
}

#[test]
fn refusal_9_unused_bytes() {
    assert_eq!(read_with(&[(at(0, 3), 200)]), grammar(9, 0));
    assert_eq!(read_with(&[(at(0, 5), 255), (at(0, 6), 255)]), grammar(9, 0));
    assert_eq!(read_with(&[(at(0, 8), 1)]), grammar(9, 0));
    assert_eq!(read_with(&[(at(0, 13), 1)]), grammar(9, 0));
    assert_eq!(read_with(&[(at(3, 22), 1)]), grammar(9, 3));
    assert_eq!(read_with(&[(at(3, 22), 1), (at(3, 23), 1)]), grammar(9, 3));
    assert_eq!(read_with(&[(at(5, 2), 1)]), grammar(9, 5));
    assert_eq!(read_with(&[(at(5, 7), 1)]), grammar(9, 5));
    assert_eq!(read_with(&[(at(5, 22), 1)]), grammar(9, 5));
    assert_eq!(read_with(&[(at(7, 0), 1)]), grammar(9, 7));
    // no record, so no weight
    for r in 7..21 {
        assert_eq!(read_with(&[(at(r, 23), 1)]), grammar(9, 7));
    }
    assert_eq!(read_with(&[(BLOCK + 507, 1)]), grammar(9, 7));
    assert_eq!(read_with(&[(BLOCK + 507, 1), (at(6, 0), 9)]), grammar(6, 6));
}

#[test]
fn refusal_10_equal_records() {
    assert_eq!(read_with(&[(at(6, 0), 2), (at(6, 5), 0)]), grammar(10, 6));
    assert_eq!(read_with(&[(at(1, 2), 3), (at(1, 4), 3), (at(6, 0), 99)]), grammar(10, 2));
    // the same two doubles, which now differ only in weight
    assert_eq!(read_with(&[(at(6, 0), 2), (at(6, 5), 0), (at(6, 23), 1)]), grammar(10, 6));
    assert_eq!(read_with(&[(at(6, 0), 2), (at(6, 5), 0), (at(5, 23), 255)]), grammar(10, 6));
    assert_eq!(read_with(&[(at(1, 2), 3), (at(1, 4), 3), (at(1, 23), 7), (at(2, 23), 8)]), grammar(10, 2));
}

#[test]
fn the_grammar_comes_first() {
    let file = with_bytes(COPY, &[(2, 2)]);
    let sentence = single_words(&[9; 200]);
    let mut out = [7; 200];
    assert_eq!(Reference.check_trace(&file, &sentence, &[]), grammar(3, 0));
    assert_eq!(Reference.check_tree(&file, &sentence, &[]), grammar(3, 0));
    assert_eq!(Reference.weigh_trace(&file, &sentence, &[]), grammar(3, 0));
    assert_eq!(Reference.weigh_tree(&file, &sentence, &[]), grammar(3, 0));
    assert_eq!(Reference.trace_to_tree(&file, &sentence, &[], &mut out[..3]), grammar(3, 0));
    assert_eq!(Reference.tree_to_trace(&file, &sentence, &[], &mut out[..3]), grammar(3, 0));
    assert_eq!(Reference.count(&file, &sentence, 0, 0), grammar(3, 0));
    assert_eq!(Reference.entry(&file, &sentence, 0, 0, 5, &mut out[..3]), grammar(3, 0));
    assert_eq!(Reference.survey(&file, &mut out[..3]), grammar(3, 0));
    assert_eq!(out, [7; 200]);
}

#[test]
fn refusal_11_sentence() {
    let file = grammar_file(COPY);
    for check in [Reference::check_trace, Reference::weigh_trace, Reference::check_tree, Reference::weigh_tree] {
        assert_eq!(check(&Reference, &file, &single_words(&[9; 97]), &[0; 97]), analysis(11, 96));
        assert_eq!(check(&Reference, &file, &single_words(&[0, 1, 2, 3]), &[0; 97]), analysis(11, 2));
        assert_eq!(check(&Reference, &file, &single_words(&[0, 65_535]), &[]), analysis(11, 1));
    }
    assert_eq!(Reference.count(&file, &single_words(&[2]), 1, 1), analysis(11, 0));
}

#[test]
fn refusals_12_to_18_trace() {
    let file = weighted_file(COPY, &[3; 7]);
    let check = |words: &[u16], trace: &[u16]| {
        let sentence = single_words(words);
        let refused = Reference.check_trace(&file, &sentence, trace);
        assert_eq!(Reference.weigh_trace(&file, &sentence, trace), refused);
        refused
    };
    assert_eq!(check(&[], &[9; 97]), analysis(12, 0));
    assert_eq!(check(&[], &[]), analysis(17, 0));
    assert_eq!(check(&[], &[9; 96]), analysis(13, 0));
    assert_eq!(check(&[0, 0], &[0, 3, 5, 7, 5]), analysis(13, 3));
    assert_eq!(check(&[0, 0], &[0, 3, 5, 5, 7]), analysis(13, 4));
    assert_eq!(check(&[0, 0], &[0, 3, 5, 5, 5]), analysis(14, 4));
    assert_eq!(check(&[0, 0], &[0, 5, 7, 7]), analysis(15, 1));
    assert_eq!(check(&[0, 0], &[0, 3, 5, 6, 5]), analysis(15, 3));
    assert_eq!(check(&[1, 0], &[0, 3, 5, 5]), analysis(16, 2));
    assert_eq!(check(&[0], &[0, 3, 5, 5]), analysis(16, 3));
    assert_eq!(check(&[0, 0], &[0]), analysis(17, 1));
    assert_eq!(check(&[0, 0], &[0, 3, 5]), analysis(17, 2));
    assert_eq!(check(&[0, 0, 1], &[0, 3, 5, 5]), analysis(18, 2));
}

#[test]
fn refusals_12_to_22_tree() {
    let file = weighted_file(COPY, &[3; 7]);
    let check = |words: &[u16], tree: &[u16]| {
        let sentence = single_words(words);
        let refused = Reference.check_tree(&file, &sentence, tree);
        assert_eq!(Reference.weigh_tree(&file, &sentence, tree), refused);
        refused
    };
    assert_eq!(check(&[], &[9; 97]), analysis(12, 0));
    assert_eq!(check(&[], &[]), analysis(19, 0));
    assert_eq!(check(&[0, 0], &[0, 3, 5]), analysis(19, 3));
    assert_eq!(check(&[0, 0], &[0, 3, 7]), analysis(13, 2));
    assert_eq!(check(&[0, 0], &[1]), analysis(20, 0));
    assert_eq!(check(&[1], &[0, 3, 5, 5, 9, 9]), analysis(21, 4));
    assert_eq!(check(&[1, 0], &[0, 3, 5, 5]), analysis(22, 0));
    assert_eq!(check(&[0, 0, 0], &[0, 3, 5, 5]), analysis(22, 0));
}

#[test]
fn refusal_23_output() {
    let file = grammar_file(COPY);
    let mut out = [7; 95];
    assert_eq!(Reference.trace_to_tree(&file, &single_words(&[9]), &[], &mut out), desk(23));
    assert_eq!(Reference.tree_to_trace(&file, &single_words(&[9]), &[], &mut out), desk(23));
    assert_eq!(Reference.entry(&file, &single_words(&[9]), 0, 0, 0, &mut out), desk(23));
    assert_eq!(Reference.survey(&file, &mut out), desk(23));
    assert_eq!(out, [7; 95]);
}

#[test]
fn refusals_24_to_26_count_and_entry() {
    let file = grammar_file(PAIR);
    for (node_limit, effort_limit) in [(0, 9), (97, 9), (1 << 32, 9), (5, 0), (5, 1_000_000_001), (5, u64::MAX)] {
        assert_eq!(Reference.count(&file, &single_words(&[9]), node_limit, effort_limit), desk(24));
    }
    let sentence = single_words(&[0, 0, 0]);
    let mut out = [7; 97];
    assert_eq!(Reference.count(&file, &sentence, 5, 11), desk(25));
    assert_eq!(Reference.entry(&file, &sentence, 5, 11, 9, &mut out), desk(25));
    assert_eq!(Reference.entry(&file, &sentence, 5, 12, 2, &mut out), desk(26));
    assert_eq!(out, [7; 97]);
    assert_eq!(Reference.entry(&file, &sentence, 5, 12, 1, &mut out), Answer::Accepted(5));
    assert_eq!((&out[..5], &out[5..]), (&[0, 1, 0, 1, 1][..], &[7; 92][..]));
}

#[test]
fn writer() {
    let (heading, records) = parts(COPY);
    let file = grammar_file(COPY);
    let mut out = [7; 1030];
    assert_eq!(Reference.write_grammar(&heading, &records, &mut out[..1023]), desk(23));
    assert_eq!(out, [7; 1030]);
    assert_eq!(Reference.write_grammar(&heading, &records, &mut out), Answer::Accepted(1024));
    assert_eq!((&out[..1024], &out[1024..]), (&file[..], &[7; 6][..]));

    let mut wrong = heading.clone();
    wrong.rules = 257;
    assert_eq!(Reference.write_grammar(&wrong, &[0; 24 * 257], &mut out), grammar(4, 0));
    wrong.rules = 8;
    assert_eq!(Reference.write_grammar(&wrong, &records, &mut out), grammar(5, 0));
    wrong.dimensions.push(0);
    assert_eq!(Reference.write_grammar(&wrong, &records, &mut out), grammar(4, 0));
    for (byte, value, number) in [(0, 4, 6), (5, 2, 7), (11, 9, 9), (5, 0, 0)] {
        let mut bytes = records.clone();
        bytes[24 * 6 + byte] = value;
        let expected = if number == 0 { Answer::Accepted(1024) } else { grammar(number, 6) };
        assert_eq!(Reference.write_grammar(&heading, &bytes, &mut out), expected);
    }
    let mut bytes = records.clone();
    bytes[11] = 9;
    assert_eq!(Reference.write_grammar(&heading, &bytes, &mut []), grammar(8, 0));
    bytes = records.clone();
    bytes.copy_within(24 * 5..24 * 6, 24 * 6);
    assert_eq!(Reference.write_grammar(&heading, &bytes, &mut []), grammar(10, 6));
    bytes[24 * 6 + 23] = 1;
    assert_eq!(Reference.write_grammar(&heading, &bytes, &mut []), grammar(10, 6));
}

#[test]
fn program() {
    let file = grammar_file(PAIR);
    let printed = |grammar: &[u8], sentence: &[u8]| String::from_utf8(output(grammar, sentence)).unwrap();
    assert_eq!(printed(&[], &[]), "R 1 0\n");
    assert_eq!(printed(&file, &[]), "R 11 0\n");
    assert_eq!(printed(&file, &[0, 0]), "R 11 0\n");
    assert_eq!(printed(&file, &sentence_file(0, &[9])), "R 24 0\n");
    assert_eq!(printed(&file, &sentence_file(97, &[9])), "R 24 0\n");
    assert_eq!(printed(&file, &sentence_file(96, &[9; 97])), "R 11 96\n");
    assert_eq!(printed(&file, &sentence_file(96, &[0, 0, 1])), "R 11 2\n");
    assert_eq!(printed(&file, &sentence_file(27, &[0; 14])), "R 25 0\n");
    assert_eq!(printed(&file, &sentence_file(3, &[])), "0 2\n");
    assert_eq!(printed(&file, &sentence_file(1, &[0])), "1 2\n1\n");
    assert_eq!(printed(&with_bytes(COPY, &[(at(6, 0), 4)]), &[]), "R 6 6\n");
}
