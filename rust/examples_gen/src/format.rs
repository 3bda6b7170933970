//! The dumps of `docs/FORMAT.md` say what the files hold: every offset, byte and number, and the sums of the checks. What the page says of
//! refusals 1, 4, 30 and 31 is tried.
//!
//! A dump begins with a line "Bytes A to B of `FILE`", has a row `| offset | hex | bytes | value | meaning |` for each field that it shows,
//! and ends with the next blank line. Bytes of A to B that no row shows are 0. A line "    block K: 3·1 + 4·1 = 7" has the sum of the
//! check of block K of the file of the last dump before it, with all bytes that are not 0.

use std::fs;
use std::path::{Path, PathBuf};

use reference::file::{check, read, BLOCK};
use reference::lexicon_notation::WrittenLexicon;
use reference::made::make;
use reference::samples::full_lexicon;
use reference::Refusal;

/// Where the check of a block stands.
const CHECK: usize = 508;

fn top() -> PathBuf {
    Path::new(env!("CARGO_MANIFEST_DIR")).join("../..")
}

fn page() -> String {
    fs::read_to_string(top().join("docs/FORMAT.md")).expect("docs/FORMAT.md is there")
}

struct Dump {
    path: String,
    file: Vec<u8>,
    first: usize,
    last: usize,
    /// Which bytes of the file the rows show.
    shown: Vec<bool>,
    rows: usize,
    /// How many blocks have their sum.
    sums: usize,
}

/// The dumps of a page, or what is wrong with it.
fn dumps(text: &str) -> Result<Vec<Dump>, String> {
    let mut dumps: Vec<Dump> = Vec::new();
    let mut within = false;
    for line in text.lines() {
        let wrong = |what: &str| format!("{what}: {line}");
        if let Some(rest) = line.strip_prefix("Bytes ").filter(|rest| rest.contains(" of `")) {
            dumps.push(begun(rest).ok_or(wrong("no dump begins so"))?);
            within = true;
        } else if let (Some(row), true, Some(dump)) = (row_of(line), within, dumps.last_mut()) {
            show(dump, &row).map_err(|what| wrong(&what))?;
        } else if line.is_empty() && dumps.last().is_some_and(|dump| dump.rows > 0) {
            within = false;
        } else if let (Some(sum), Some(dump)) = (line.strip_prefix("    block "), dumps.last_mut()) {
            add_up(dump, sum).map_err(|what| wrong(&what))?;
        }
    }
    for dump in &dumps {
        if (dump.first..=dump.last).any(|k| !dump.shown[k] && dump.file[k] != 0) {
            return Err(format!("a byte of {} that is not 0 is not shown", dump.path));
        }
    }
    Ok(dumps)
}

/// The dump that a line "Bytes A to B of `FILE`" begins, without "Bytes ".
fn begun(rest: &str) -> Option<Dump> {
    let (range, named) = rest.split_once(" of `")?;
    let (first, last) = range.split_once(" to ")?;
    let (path, after) = named.split_once('`')?;
    let (first, last) = (first.parse().ok()?, last.parse().ok()?);
    let file = fs::read(top().join(path)).ok()?;
    let whole = match after {
        ":" => false,
        ", the whole file:" => true,
        _ => return None,
    };
    if first > last || last >= file.len() || whole && (first, last + 1) != (0, file.len()) {
        return None;
    }
    let shown = vec![false; file.len()];
    Some(Dump { path: path.to_string(), file, first, last, shown, rows: 0, sums: 0 })
}

/// The first four cells of a row.
fn row_of(line: &str) -> Option<Vec<&str>> {
    let cells: Vec<&str> = line.strip_prefix("| ")?.splitn(5, " | ").collect();
    (cells.len() == 5 && cells[0] != "offset" && cells[0] != "---").then(|| cells[..4].to_vec())
}

/// Compares a row with the file.
fn show(dump: &mut Dump, row: &[&str]) -> Result<(), String> {
    let offset: usize = row[0].parse().map_err(|_| "no offset")?;
    if row[1] != format!("{offset:03x}") {
        return Err("another offset in hex".to_string());
    }
    let bytes: Option<Vec<u8>> = row[2].split(' ').map(|byte| u8::from_str_radix(byte, 16).ok().filter(|_| byte.len() == 2)).collect();
    let bytes = bytes.ok_or("no bytes")?;
    let after = offset + bytes.len();
    if offset < dump.first || after > dump.last + 1 || dump.shown[offset..].contains(&true) {
        return Err("a row out of its place".to_string());
    }
    if dump.file[offset..after] != bytes {
        return Err("other bytes in the file".to_string());
    }
    let value = bytes.iter().rev().fold(0, |value: u64, &byte| 256 * value + byte as u64);
    if row[3] != value.to_string() {
        return Err(format!("the value is {value}"));
    }
    dump.shown[offset..after].fill(true);
    dump.rows += 1;
    Ok(())
}

/// Compares a line "K: 3·1 + 4·1 = 7" with block K of the file.
fn add_up(dump: &mut Dump, text: &str) -> Result<(), String> {
    let (k, rest) = text.split_once(": ").ok_or("no block")?;
    let (terms, sum) = rest.split_once(" = ").ok_or("no sum")?;
    if k != dump.sums.to_string() {
        return Err("another block".to_string());
    }
    let block = dump.file.chunks_exact(BLOCK).nth(dump.sums).ok_or("no such block")?;
    let not_zero = (0..CHECK).filter(|&i| block[i] != 0);
    let expected: Vec<String> = not_zero.map(|i| format!("{}·{}", i + 1, block[i])).collect();
    if terms != expected.join(" + ") {
        return Err(format!("the terms are {}", expected.join(" + ")));
    }
    let added = check(block);
    if sum != added.to_string() || block[CHECK..] != added.to_le_bytes() {
        return Err(format!("the sum is {added}"));
    }
    dump.sums += 1;
    Ok(())
}

#[test]
fn the_dumps_are_the_files() {
    let dumps = dumps(&page()).unwrap_or_else(|wrong| panic!("docs/FORMAT.md: {wrong}"));
    let found: Vec<(&str, usize, usize, usize)> = dumps.iter().map(|dump| (&dump.path[..], dump.first, dump.last, dump.sums)).collect();
    let expected = [
        ("examples/pair/grammar", 0, 1023, 2),
        ("examples/copy/grammar", 540, 563, 0),
        ("examples/pair/sentence", 0, 6, 0),
        ("examples/attachment/sentence", 0, 14, 0),
        ("examples/question/lexicon", 8, 15, 0),
        ("examples/question/lexicon", 40, 47, 0),
    ];
    assert_eq!(found, expected);
    assert!(dumps.iter().all(|dump| dump.rows > 0));
}

/// Another digit anywhere in the first four cells of a row, or in a sum, is found, and so is a row with a byte that is not 0 and is left out.
#[test]
fn every_slip_is_found() {
    let page = page();
    let lines: Vec<&str> = page.lines().collect();
    let with = |k: usize, line: Option<&str>| {
        let changed = lines.iter().enumerate().filter_map(|(i, &held)| if i == k { line } else { Some(held) });
        changed.collect::<Vec<_>>().join("\n")
    };
    let mut tried = 0;
    let mut within = false;
    for (k, line) in lines.iter().enumerate() {
        within = within && !(line.is_empty() && lines[k - 1].starts_with('|')) || line.starts_with("Bytes ") && line.contains(" of `");
        let row = row_of(line).filter(|_| within);
        if row.is_none() && !line.starts_with("    block ") {
            continue;
        }
        let to = row.as_ref().map_or(line.len(), |row| "| ".len() + row.join(" | ").len());
        for (at, digit) in line[..to].char_indices().filter(|(_, c)| c.is_ascii_hexdigit()) {
            if line.starts_with("    block ") && !digit.is_ascii_digit() {
                continue;
            }
            let other = if digit == '1' { "2" } else { "1" };
            let changed = [&line[..at], other, &line[at + 1..]].concat();
            assert!(dumps(&with(k, Some(&changed))).is_err(), "not found: {changed}");
            tried += 1;
        }
        if row.is_some_and(|row| row[3] != "0") {
            assert!(dumps(&with(k, None)).is_err(), "not found: {line} left out");
            tried += 1;
        }
    }
    assert!(tried > 400, "{tried} slips tried");
}

/// What the page says of 1, 4, 5 and 9: a grammar file of the examples with some bytes changed and the checks put right.
#[test]
fn what_refusals_of_a_grammar_mean() {
    let refused = |name: &str, changes: &[(usize, u8)]| {
        let mut file = fs::read(top().join("examples").join(name).join("grammar")).unwrap();
        for &(at, byte) in changes {
            file[at] = byte;
        }
        for block in file.chunks_exact_mut(BLOCK) {
            let sum = check(block);
            block[CHECK..].copy_from_slice(&sum.to_le_bytes());
        }
        read(&file).err()
    };
    assert_eq!(refused("pair", &[]), None);
    let all_dimensions: Vec<(usize, u8)> = (16..80).map(|at| (at, 1)).collect();
    // the start of dimension 2, counted from 1, all dimensions, a dimension 0, no words, too many words and rules, R with its higher byte first
    let headings: [&[(usize, u8)]; 8] =
        [&[(16, 2)], &[(4, 1)], &all_dimensions, &[(16, 0)], &[(5, 0)], &[(5, 1), (6, 16)], &[(7, 1), (8, 1)], &[(7, 0), (8, 2)]];
    for changes in headings {
        assert_eq!(refused("pair", changes), Some(Refusal::grammar(4, 0)), "{changes:?}");
    }
    for unused in (9..16).chain(80..CHECK) {
        assert_eq!(refused("pair", &[(unused, 1)]), Some(Refusal::grammar(4, 0)), "{unused}");
    }
    // the five nonlexical rules of the copy grammar counted alone, in the heading and then also in the block
    assert_eq!(refused("copy", &[(7, 5)]), Some(Refusal::grammar(5, 1)));
    assert_eq!(refused("copy", &[(7, 5), (BLOCK + 3, 5)]), Some(Refusal::grammar(9, 5)));
    for length in [0, 511, 513, 15 * BLOCK] {
        assert_eq!(read(&vec![0; length]).err(), Some(Refusal::grammar(1, 0)));
    }
}

/// What the page says of 30 and 31.
#[test]
fn what_refusals_of_a_lexicon_mean() {
    let held = fs::read(top().join("examples/question/lexicon")).unwrap();
    let refused = |lexicon: &[u8], words, start| make(lexicon, words, start).err().map(|refusal| (refusal.number, refusal.place));
    assert_eq!(refused(&held, 8, 2), None);
    // the highest word for the word count, entries of 7 bytes, no entries, 33 of them, starts that are none
    assert_eq!(refused(&held, 7, 2), Some((30, 0)));
    let of_seven: Vec<u8> = held.chunks(8).flat_map(|entry| &entry[..7]).copied().collect();
    assert_eq!(refused(&of_seven, 8, 2), Some((30, 0)));
    assert_eq!(refused(&[], 8, 2), Some((30, 0)));
    assert_eq!(refused(&held.repeat(4)[..33 * 8], 8, 2), Some((30, 0)));
    for start in [0, 16, 18] {
        assert_eq!(refused(&held, 8, start), Some((30, 0)), "{start}");
    }
    let with = |entry: [u8; 8]| refused(&[&held[..], &entry].concat(), 8, 2);
    assert_eq!(with([7, 0, 5, 0, 0, 0, 0, 0]), None);
    for byte in (0..=255).filter(|byte| !matches!(byte, 1..=15 | 17..=31 | 33..=35 | 49..=51)) {
        assert!([0, 16, 32].contains(&byte) || (36..=48).contains(&byte) || byte > 51);
        assert_eq!(with([7, 0, byte, 0, 0, 0, 0, 0]), Some((30, 0)), "{byte}");
    }
    assert_eq!(with([7, 0, 5, 0, 1, 0, 0, 0]), Some((30, 0)));
    assert_eq!(with([0, 7, 5, 0, 0, 0, 0, 0]), Some((30, 0)));
    // a selector and a licensee that are 16 too low
    assert_eq!(with([7, 0, 1, 1, 0, 0, 0, 0]), None);
    assert_eq!(with([7, 0, 5, 33, 0, 0, 0, 0]), None);

    // nothing satisfies the selector; no licensee; no licensor; features after the start category
    for text in ["a :: =d c", "a :: d\nb :: =d +w c", "a :: d -w\nb :: =d c", "a :: c -w"] {
        let written = WrittenLexicon::new(text);
        assert_eq!(refused(&written.bytes, written.word_count(), written.category("c")), Some((31, 0)), "{text}");
    }
    assert_eq!(refused(&held, 8, 15), Some((31, 0)));
    assert_eq!(refused(&full_lexicon(17, 3), 18, 1), None);
    assert_eq!(refused(&full_lexicon(18, 3), 19, 1), Some((31, 0)));
}
