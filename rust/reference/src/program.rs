//! What the program prints for the bytes of the files `grammar` and `sentence`.

use crate::calls::Refusal;
use crate::file::read;
use crate::listing::{listing, Listing};
use crate::sentence::single_words;

pub const EFFORT_LIMIT: u64 = 1_000_000;

pub fn output(grammar_file: &[u8], sentence_file: &[u8]) -> Vec<u8> {
    printed(answer(grammar_file, sentence_file))
}

/// Count and effort, then one trace a line; or R, number and place.
pub fn printed(outcome: Result<Listing, Refusal>) -> Vec<u8> {
    let lines = match outcome {
        Ok(listing) => {
            let mut lines = vec![format!("{} {}", listing.traces.len(), listing.effort)];
            for trace in &listing.traces {
                lines.push(trace.iter().map(u16::to_string).collect::<Vec<_>>().join(" "));
            }
            lines
        }
        Err(refusal) => vec![format!("R {} {}", refusal.number, refusal.place)],
    };
    lines.iter().flat_map(|line| format!("{line}\n").into_bytes()).collect()
}

fn answer(grammar_file: &[u8], sentence_file: &[u8]) -> Result<Listing, Refusal> {
    let grammar = read(grammar_file)?;
    if sentence_file.len() % 2 == 0 {
        return Err(Refusal::analysis(11, 0));
    }
    let words: Vec<u16> = sentence_file[1..].chunks(2).map(|pair| u16::from_le_bytes([pair[0], pair[1]])).collect();
    listing(&grammar, &single_words(&words), sentence_file[0] as u64, EFFORT_LIMIT)
}

/// The bytes of a file `sentence`, which has single words.
pub fn sentence_file(node_limit: u8, words: &[u16]) -> Vec<u8> {
    let mut file = vec![node_limit];
    file.extend(words.iter().flat_map(|word| word.to_le_bytes()));
    file
}
