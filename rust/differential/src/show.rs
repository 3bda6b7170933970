//! Inputs in writing, for reports.

use reference::file::BLOCK;
use reference::lexicon::ENTRY;
use reference::Heading;

use crate::lexicons::Given;

/// The file's blocks as hexadecimal bytes, each without the zeros before its check.
pub fn show_file(file: &[u8]) -> String {
    let mut text = format!("file of {} bytes\n", file.len());
    for (k, block) in file.chunks(BLOCK).enumerate() {
        let body = &block[..block.len().min(508)];
        let used = body.iter().rposition(|&b| b != 0).map_or(0, |last| last + 1);
        text += &format!("block {k}: {} .. {}\n", hex(&body[..used]), hex(&block[body.len()..]));
    }
    text
}

pub fn show_heading(heading: &Heading, records: &[u8]) -> String {
    let mut text = format!("{heading:?}\n{} record bytes\n", records.len());
    for record in records.chunks(24) {
        text += &format!("{}\n", hex(record));
    }
    text
}

pub fn show_lexicon(given: &Given) -> String {
    let mut text = format!("words {} start {}\n{} lexicon bytes\n", given.words, given.start, given.lexicon.len());
    for entry in given.lexicon.chunks(ENTRY) {
        text += &format!("{}\n", hex(entry));
    }
    text
}

fn hex(bytes: &[u8]) -> String {
    bytes.iter().map(|byte| format!("{byte:02x}")).collect::<Vec<_>>().join(" ")
}
