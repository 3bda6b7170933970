//! Inputs that are the same in every run: K3 to K10 of document 01, and everything that can be gone through one by one.

use reference::file::BLOCK;
use reference::live::live_prefixes;
use reference::samples::{CHAIN, COPY, PAIR, SHUFFLED, SMALL};
use reference::sentence::single_words;
use reference::word;

use crate::compare::{Done, Pair};
use crate::damage::{at, seal};
use crate::dates;
use crate::fixed_lexicons;
use crate::grammars::Made;
use crate::orders;
use crate::unclear;

pub fn fixed(pair: &mut Pair) -> Done {
    known(pair)?;
    fixed_lexicons::fixed(pair)?;
    lengths_of_lists(pair)?;
    lengths_of_outputs(pair)?;
    limits(pair)?;
    entries(pair)?;
    numbers_of_rules(pair)?;
    weights(pair)?;
    doubles(pair)?;
    doubles_among_256(pair)?;
    writer(pair)?;
    checks(pair)?;
    lengths_of_files(pair)?;
    bytes_of_files(pair)?;
    dates::fixed(pair)?;
    orders::fixed(pair)?;
    unclear::fixed(pair)
}

fn copy() -> Made {
    Made::of_text(COPY)
}

fn pair_grammar() -> Made {
    Made::of_text(PAIR)
}

/// A grammar of as many rules as words, all of one category.
fn words(rules: usize) -> Made {
    Made::of_text(&(0..rules).map(|word| format!("S <- {word}\n")).collect::<String>())
}

/// K3 to K10.
fn known(pair: &mut Pair) -> Done {
    let file = &copy().file;
    let sentence = &single_words(&[0, 1, 0, 1]);
    pair.check_and_weigh_trace(file, sentence, &[0, 1, 5, 4, 6, 5, 6])?;
    pair.trace_to_tree(file, sentence, &[0, 1, 5, 4, 6, 5, 6], 96)?;
    pair.tree_to_trace(file, sentence, &[0, 1, 5, 4, 6, 6, 5], 96)?;
    pair.check_and_weigh_trace(file, sentence, &[0, 1, 5, 4, 6, 6, 5])?;
    pair.count(file, sentence, 7, 13)?;
    pair.count(file, sentence, 7, 12)?;
    pair.count(file, sentence, 6, 1000)?;
    for words in [&[0, 0][..], &[0, 1], &[0, 0, 0]] {
        pair.check_and_weigh_trace(file, &single_words(words), &[0, 3, 5, 5])?;
    }
    let sentence = &single_words(&[0, 0]);
    for trace in [&[0, 1, 5][..], &[0, 3, 5, 5, 5]] {
        pair.check_and_weigh_trace(file, sentence, trace)?;
    }
    for tree in [&[0, 3, 5][..], &[0, 3, 5, 6], &[0, 3, 5, 5, 5], &[0, 3, 5, 5]] {
        pair.check_and_weigh_tree(file, sentence, tree)?;
    }
    let file = &pair_grammar().file;
    let sentence = &single_words(&[0, 0, 0]);
    pair.count(file, sentence, 5, 1_000_000)?;
    for m in 0..3 {
        pair.entry(file, sentence, (5, 1_000_000), m, 96)?;
    }
    Ok(())
}

/// Sentences, traces and trees of every length from 0 to 130.
fn lengths_of_lists(pair: &mut Pair) -> Done {
    let file = &pair_grammar().file;
    for n in 0..=130 {
        let sentence = vec![word(0); n];
        // the trace of n words put into pairs from the left
        let mut trace = vec![0; n.saturating_sub(1)];
        trace.extend(vec![1; n]);
        for length in [trace.len(), n] {
            trace.truncate(length);
            pair.check_and_weigh_trace(file, &sentence, &trace)?;
            pair.check_and_weigh_tree(file, &sentence, &trace)?;
            pair.trace_to_tree(file, &sentence, &trace, 96)?;
            pair.tree_to_trace(file, &sentence, &trace, 96)?;
        }
        pair.count(file, &sentence, 9, 500)?;
        pair.entry(file, &sentence, (9, 500), 0, 96)?;
        for last in [word(1), word(65_535)] {
            let mut sentence = sentence.clone();
            sentence.push(last);
            pair.check_and_weigh_trace(file, &sentence, &[0])?;
            pair.count(file, &sentence, 9, 500)?;
        }
    }
    Ok(())
}

/// Outputs of every length from 0 to 200.
fn lengths_of_outputs(pair: &mut Pair) -> Done {
    let file = &copy().file;
    let sentence = &single_words(&[0, 1, 0, 1]);
    for out in 0..=200 {
        pair.trace_to_tree(file, sentence, &[0, 1, 5, 4, 6, 5, 6], out)?;
        pair.trace_to_tree(file, sentence, &[0, 1, 5, 4, 6, 6, 5], out)?;
        pair.tree_to_trace(file, sentence, &[0, 1, 5, 4, 6, 6, 5], out)?;
        pair.tree_to_trace(file, sentence, &[0, 1, 5, 4, 6, 5, 6], out)?;
        pair.entry(file, sentence, (7, 13), 0, out)?;
        pair.entry(file, sentence, (7, 12), 0, out)?;
        pair.entry(file, sentence, (7, 13), 1, out)?;
        pair.survey(file, out)?;
    }
    Ok(())
}

/// Every node limit from 0 to 100, and every effort limit up to past the effort.
fn limits(pair: &mut Pair) -> Done {
    for text in SMALL {
        let made = Made::of_text(text);
        for words in [&[][..], &[0], &[0, 0], &[0, 1, 0, 1], &[0, 0, 0, 0, 0, 0]] {
            let sentence = &single_words(words);
            for node_limit in 0..=100 {
                pair.count(&made.file, sentence, node_limit, 60)?;
                pair.entry(&made.file, sentence, (node_limit, 60), 0, 96)?;
            }
            for node_limit in [1, 5, 6, 7, 10] {
                let effort = live_prefixes(&made.grammar, sentence, node_limit, 100).map_or(100, |live| live.effort);
                for effort_limit in 0..=effort + 3 {
                    pair.count(&made.file, sentence, node_limit as u64, effort_limit)?;
                }
            }
        }
    }
    Ok(())
}

/// Every entry of some listings, and those past the last.
fn entries(pair: &mut Pair) -> Done {
    for text in SMALL {
        let made = Made::of_text(text);
        for (words, node_limit) in [(&[0, 0, 0, 0, 0][..], 9), (&[0, 0, 0, 0], 10), (&[0, 1, 0, 1, 0, 1], 10), (&[0], 6)] {
            let sentence = &single_words(words);
            let Some(live) = live_prefixes(&made.grammar, sentence, node_limit, 3_000) else { continue };
            let count = live.complete.len() as u64;
            for m in (0..40.min(count)).chain(count.saturating_sub(2)..count + 3) {
                pair.entry(&made.file, sentence, (node_limit as u64, live.effort), m, 96)?;
            }
        }
    }
    Ok(())
}

/// Every number of rules, written and read, and with a record count or a number of blocks that is not right.
fn numbers_of_rules(pair: &mut Pair) -> Done {
    for rules in 1..=256 {
        let made = words(rules);
        pair.read_grammar(&made.file)?;
        pair.write_grammar(&made.heading, &made.records, made.file.len() + 3)?;
        for number in [rules - 1, rules + 1, rules + 21] {
            let mut file = made.file.clone();
            file[7..9].copy_from_slice(&(number as u16).to_le_bytes());
            seal(&mut file);
            pair.read_grammar(&file)?;
        }
        let last = rules as u16 - 1;
        pair.check_and_weigh_tree(&made.file, &[word(last)], &[last])?;
        pair.check_and_weigh_trace(&made.file, &[word(last)], &[last + 1])?;
    }
    Ok(())
}

/// Every weight on every rule of the copy grammar, up to 97 times the highest weight, and 256 rules of different weights.
fn weights(pair: &mut Pair) -> Done {
    let sentence = &single_words(&[0, 1, 0, 1]);
    for one in 0..7 {
        for weight in 0..=255 {
            let made = copy().with_weights(|rule| if rule == one { weight } else { 0 });
            pair.read_grammar(&made.file)?;
            pair.write_grammar(&made.heading, &made.records, made.file.len())?;
            pair.check_and_weigh_trace(&made.file, sentence, &[0, 1, 5, 4, 6, 5, 6])?;
            pair.check_and_weigh_tree(&made.file, sentence, &[0, 1, 5, 4, 6, 6, 5])?;
        }
    }
    let file = &Made::of_text(CHAIN).with_weights(|_| 255).file;
    for above in 0..=96 {
        let chain = [vec![0; above], vec![2]].concat();
        pair.check_and_weigh_trace(file, &[word(0)], &chain)?;
        pair.check_and_weigh_tree(file, &[word(0)], &chain)?;
    }
    let file = &words(256).with_weights(|rule| 255 - rule as u8).file;
    for rule in 0..256 {
        pair.check_and_weigh_trace(file, &[word(rule)], &[rule])?;
        pair.check_and_weigh_tree(file, &[word(rule)], &[rule])?;
    }
    Ok(())
}

/// Each record of the copy grammar in the place of each other one, with the same weight and with others; and two records that differ in
/// their last two variables alone.
fn doubles(pair: &mut Pair) -> Done {
    let made = copy().with_weights(|_| 1);
    for (a, b) in (0..7).flat_map(|a| (0..7).map(move |b| (a, b))) {
        for weight in [0, 1, 2, 255] {
            let (mut records, mut file) = (made.records.clone(), made.file.clone());
            records.copy_within(24 * a..24 * a + 24, 24 * b);
            records[24 * b + 23] = weight;
            pair.write_grammar(&made.heading, &records, 1024)?;
            file[at(b)..at(b) + 24].copy_from_slice(&records[24 * b..24 * b + 24]);
            seal(&mut file);
            pair.read_grammar(&file)?;
        }
    }
    let last_two = Made::of_text(
        "S(abcdefghijkl) <- Q(a,b,c,d) Q(e,f,g,h) Q(i,j,k,l)
         S(abcdefghijlk) <- Q(a,b,c,d) Q(e,f,g,h) Q(i,j,k,l)",
    );
    pair.read_grammar(&last_two.file)?;
    pair.write_grammar(&last_two.heading, &last_two.records, 1024)
}

/// The letters a to f in the order of that number, from 0.
pub fn order(number: usize) -> String {
    let (mut letters, mut order, mut left) = ("abcdef".to_string(), String::new(), number);
    for choices in (1..=6).rev() {
        order.push(letters.remove(left % choices));
        left /= choices;
    }
    order
}

/// 256 rules that differ in the order of their variables alone, and each but the first replaced by rule 0, by rule 1, by one halfway and by
/// the one before it.
fn doubles_among_256(pair: &mut Pair) -> Done {
    let made = Made::of_text(&(0..256).map(|number| format!("S({}) <- Q(a,b,c,d) P(e,f)\n", order(number))).collect::<String>());
    pair.read_grammar(&made.file)?;
    pair.write_grammar(&made.heading, &made.records, made.file.len())?;
    for later in 1..256 {
        for earlier in [0, 1, later / 2, later - 1] {
            let mut records = made.records.clone();
            records.copy_within(24 * earlier..24 * earlier + 24, 24 * later);
            let mut file = made.file.clone();
            file[at(later)..at(later) + 24].copy_from_slice(&records[24 * later..24 * later + 24]);
            seal(&mut file);
            pair.read_grammar(&file)?;
            pair.write_grammar(&made.heading, &records, made.file.len())?;
        }
    }
    Ok(())
}

/// Checks that are right, one too high, one too low and with one bit changed: of a last block with one byte that is not 0, with one value
/// from a byte on or up to it, and with one value throughout.
fn checks(pair: &mut Pair) -> Done {
    let one_byte = (0..508).map(|i| (i..i + 1, 255));
    let from_byte = (0..508).map(|i| (i..508, 255));
    let to_byte = (0..508).map(|i| (0..i, 254));
    let one_value = (0..=255).map(|value| (0..508, value));
    for (number, (bytes, value)) in one_byte.chain(from_byte).chain(to_byte).chain(one_value).enumerate() {
        let mut file = vec![0; BLOCK * (1 + number % 14)];
        let last = file.len() - BLOCK;
        file[last..][bytes].fill(value);
        seal(&mut file);
        let right = u32::from_le_bytes(file[last + 508..].try_into().expect("a check has four bytes"));
        for sum in [right, right.wrapping_add(1), right.wrapping_sub(1), right ^ 1 << (number % 32)] {
            file[last + 508..].copy_from_slice(&sum.to_le_bytes());
            pair.read_grammar(&file)?;
        }
    }
    Ok(())
}

/// Record bytes of every length, outputs of every length, and headings in and out of range.
fn writer(pair: &mut Pair) -> Done {
    let made = copy();
    let mut records = made.records.clone();
    records.resize(300, 0);
    for length in 0..=300 {
        pair.write_grammar(&made.heading, &records[..length], 1024)?;
    }
    for out in (0..=200).chain(480..=540).chain(990..=1060) {
        pair.write_grammar(&made.heading, &made.records, out)?;
    }
    for length in 0..=130 {
        let mut heading = made.heading.clone();
        heading.dimensions.resize(length, 0);
        pair.write_grammar(&heading, &made.records, 1024)?;
    }
    for byte in 0..=255 {
        let mut heading = made.heading.clone();
        heading.categories = byte;
        pair.write_grammar(&heading, &made.records, 1024)?;
        heading = made.heading.clone();
        heading.start = byte;
        pair.write_grammar(&heading, &made.records, 1024)?;
        for i in [0, 1, 3, 4, 63] {
            heading = made.heading.clone();
            heading.dimensions[i] = byte;
            pair.write_grammar(&heading, &made.records, 1024)?;
        }
    }
    for rules in (0..=300).chain([511, 512, 513, 65_535]) {
        let mut heading = made.heading.clone();
        heading.rules = rules;
        pair.write_grammar(&heading, &made.records, 1024)?;
        pair.write_grammar(&heading, &vec![0; 24 * rules as usize], 14 * BLOCK)?;
        heading = made.heading.clone();
        heading.words = rules;
        pair.write_grammar(&heading, &made.records, 1024)?;
    }
    for words in [4095, 4096, 4097, 8192, 65_535] {
        let mut heading = made.heading.clone();
        heading.words = words;
        pair.write_grammar(&heading, &made.records, 1024)?;
    }
    Ok(())
}

/// Files of every length up to 15 blocks.
fn lengths_of_files(pair: &mut Pair) -> Done {
    let mut file = words(256).file;
    file.resize(15 * BLOCK + 10, 0);
    for length in 0..file.len() {
        pair.read_grammar(&file[..length])?;
    }
    Ok(())
}

/// Every byte of some files changed, with the check made right again and not, for the reader and now and then for every call.
fn bytes_of_files(pair: &mut Pair) -> Done {
    for made in [copy(), Made::of_text(SHUFFLED), words(43)] {
        for i in 0..made.file.len() {
            let old = made.file[i];
            for (turn, byte) in [0, 1, 2, 3, 4, 255, old ^ 16, old.wrapping_add(1)].into_iter().enumerate() {
                let mut file = made.file.clone();
                file[i] = byte;
                if turn == i % 8 {
                    pair.read_grammar(&file)?;
                }
                seal(&mut file);
                pair.read_grammar(&file)?;
                if turn == (i / 8) % 8 {
                    every_call(pair, &file)?;
                }
            }
        }
    }
    Ok(())
}

pub fn every_call(pair: &mut Pair, file: &[u8]) -> Done {
    every_call_with(pair, file, &single_words(&[0, 0]), &[0, 3, 5, 5], (4, 20))?;
    pair.survey(file, 96)
}

/// Every call that is given a sentence, with the list as trace and as tree.
pub fn every_call_with(pair: &mut Pair, file: &[u8], sentence: &[u32], list: &[u16], limits: (u64, u64)) -> Done {
    pair.check_and_weigh_trace(file, sentence, list)?;
    pair.check_and_weigh_tree(file, sentence, list)?;
    pair.trace_to_tree(file, sentence, list, 96)?;
    pair.tree_to_trace(file, sentence, list, 96)?;
    pair.count(file, sentence, limits.0, limits.1)?;
    pair.entry(file, sentence, limits, 0, 96)
}
