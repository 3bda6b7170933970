//! Lexicons that are the same in every run (document 02, paper 6): every byte, every length, the limits, and every scheme.

use reference::lexicon::ENTRY;
use reference::samples::{KNOWS, LEXICONS, QUESTION};

use crate::compare::{Done, Pair};
use crate::lexicons::{entry, full, Given, ROOM};
use crate::minimalist;
use crate::rng::Rng;

pub fn fixed(pair: &mut Pair) -> Done {
    bytes(pair)?;
    lengths(pair)?;
    numbers(pair)?;
    repeated(pair)?;
    limits(pair)?;
    outputs(pair)?;
    schemes(pair)?;
    minimalist::fixed(pair)
}

fn samples() -> Vec<Given> {
    let small = LEXICONS.iter().map(|text| Given::of_text(text, "c"));
    small.chain([KNOWS, QUESTION].map(|text| Given::of_text(text, "C"))).collect()
}

/// Every byte value at each feature place of an entry of each number of features, and words around the word count.
fn bytes(pair: &mut Pair) -> Done {
    let rows: [&[u8]; 6] = [&[1], &[2, 49], &[18, 33, 1], &[2, 49, 50, 51], &[18, 18, 33, 34, 1], &[18, 33, 1, 49, 50, 51]];
    let given = Given::of_rows(&rows);
    let feature_places = (0..rows.len() * ENTRY).filter(|place| place % ENTRY >= 2);
    for (place, byte) in feature_places.flat_map(|place| (0..=255).map(move |byte| (place, byte))) {
        let mut changed = given.clone();
        changed.lexicon[place] = byte;
        pair.make_grammar(&changed, ROOM)?;
    }
    for words in [1, 2, 255, 256, 257, 4095, 4096] {
        for word in [0, 1, words - 1, words, words + 1, 254, 255, 256, 257, 4095, 4096, 65_534, 65_535] {
            for place in 0..rows.len() {
                let mut changed = Given { words, ..given.clone() };
                changed.lexicon[ENTRY * place..][..2].copy_from_slice(&(word as u16).to_le_bytes());
                pair.make_grammar(&changed, ROOM)?;
            }
        }
    }
    Ok(())
}

/// Lexicons of every length up to past 33 entries, all entries different.
fn lengths(pair: &mut Pair) -> Done {
    let lexicon: Vec<u8> = (0..40).flat_map(|word| entry(word, &[1])).collect();
    for length in (0..=8 * 35).chain([8 * 40]) {
        let given = Given { lexicon: lexicon[..length].to_vec(), words: 40, start: 1 };
        pair.make_grammar(&given, ROOM)?;
    }
    // as many bytes as a lexicon has, once the length is cut to 8 or 16 bits
    for length in [256 + 8, 65_536 + 8] {
        pair.make_grammar(&Given { lexicon: entry(0, &[1]).repeat(length / ENTRY), words: 40, start: 1 }, ROOM)?;
    }
    Ok(())
}

/// Word counts and start categories in and out of range, with every other part right and wrong, and with empty words alone.
fn numbers(pair: &mut Pair) -> Done {
    let one: &[&[u8]] = &[&[1]];
    let rows: [&[&[u8]]; 5] = [one, &[&[15], &[31, 1]], &[&[1], &[1]], &[&[16]], &[&[2, 49], &[18, 33, 15]]];
    let mut silent = Given::of_rows(one);
    silent.lexicon[..2].fill(255);
    for given in rows.into_iter().map(Given::of_rows).chain([silent]) {
        for words in [0, 1, 2, 4095, 4096, 4097, 8192, 65_535, 65_536, 65_537, 1 << 24 | 1, 1 << 31, u32::MAX] {
            for start in [0, 1, 2, 14, 15, 16, 17, 31, 33, 49, 255, 256, 257, 271, 65_537, 1 << 31 | 1, u32::MAX] {
                for out in [0, ROOM] {
                    pair.make_grammar(&Given { lexicon: given.lexicon.clone(), words, start }, out)?;
                }
            }
        }
    }
    Ok(())
}

/// Each entry in the place of each other one, two of them so, and one that is no entry after a repeated one.
fn repeated(pair: &mut Pair) -> Done {
    let all: Vec<[u8; ENTRY]> = (0..32).map(|number| entry(number % 8, &[1 + number as u8 / 8, 49, 50, 51, 49, 49])).collect();
    let given = |entries: &[[u8; ENTRY]], start: u32| Given { lexicon: entries.concat(), words: 8, start };
    for (from, to) in (0..32).flat_map(|from| (0..32).map(move |to| (from, to))) {
        let mut entries = all.clone();
        entries[to] = entries[from];
        pair.make_grammar(&given(&entries, 1), ROOM)?;
        if to < 31 {
            entries[31] = entries[30 - to];
            pair.make_grammar(&given(&entries, 15), 0)?;
            entries[31] = entry(0, &[16]);
            pair.make_grammar(&given(&entries, 1), ROOM)?;
        }
    }
    // entries that differ in one byte alone
    for (place, byte) in [1, 1, 2, 50, 51, 49, 50, 50].into_iter().enumerate() {
        let mut other = all[0];
        other[place] = byte;
        let given = Given { lexicon: [entry(5, &[1]), all[0], other].concat(), words: 4096, start: 1 };
        pair.make_grammar(&given, ROOM)?;
    }
    Ok(())
}

/// Up to 64 categories and 256 rules and past them, with a start category that is derivable and with one that is not; and lexicons of many
/// categories and few rules.
fn limits(pair: &mut Pair) -> Done {
    for (words, others) in [0, 16, 17, 18, 20, 21].into_iter().flat_map(|words| (0..=4).map(move |others| (words, others))) {
        let starts: &[u32] = if words == 17 { &[1, 2, 4, 9] } else { &[1] };
        for &start in starts {
            pair.make_grammar(&Given { start, ..full(words, others) }, ROOM)?;
        }
    }
    let long: Vec<[u8; 6]> = (2..13).map(|category| [17, 17, 17, 17, 17, category]).collect();
    for (number, last) in (0..=long.len()).flat_map(|number| (1..=6).map(move |last| (number, last))) {
        let mut rows: Vec<&[u8]> = vec![&[1]];
        rows.extend(long[..number].iter().map(|row| &row[..]));
        rows.push(&[17, 17, 17, 17, 17, 14][last - 1..]);
        pair.make_grammar(&Given { start: 14, ..Given::of_rows(&rows) }, ROOM)?;
    }
    Ok(())
}

/// Outputs of lengths around that of the file, of accepted lexicons and of refused ones; of one lexicon every length.
fn outputs(pair: &mut Pair) -> Done {
    for given in samples().into_iter().chain([full(17, 3), full(0, 0)]) {
        let length = given.file().expect("a lexicon").len();
        for out in [0, 1, 511, 512, 1023, 1024, length - 512, length - 1, length, length + 1, length + 77, ROOM, ROOM + 1] {
            pair.make_grammar(&given, out)?;
        }
        for out in if length == 1024 { 0..=length + 80 } else { 0..=0 } {
            pair.make_grammar(&given, out)?;
        }
        for out in [0, length - 1, length] {
            pair.make_grammar(&Given { start: 15, ..given.clone() }, out)?;
            pair.make_grammar(&Given { lexicon: given.lexicon.repeat(2), ..given.clone() }, out)?;
        }
    }
    Ok(())
}

/// Every row of up to three of some features, beside another such row and one of four that select, license, move or are wanted.
fn schemes(pair: &mut Pair) -> Done {
    let features = [1, 2, 17, 18, 33, 34, 49, 50];
    let mut rows: Vec<Vec<u8>> = vec![vec![]];
    let mut from = 0;
    for _ in 0..3 {
        let to = rows.len();
        rows.extend(rows[from..to].to_vec().iter().flat_map(|row| features.map(|feature| [&row[..], &[feature]].concat())));
        from = to;
    }
    let mut rng = Rng::new(6, 0);
    for row in &rows[1..] {
        for third in [&[1][..], &[17, 33, 1], &[2, 49, 50], &[17, 18, 1]] {
            let other = rows[1 + rng.below(rows.len() - 1)].clone();
            let given = Given::of_rows(&[row, &other, third]);
            pair.make_grammar(&given, ROOM)?;
        }
    }
    Ok(())
}
