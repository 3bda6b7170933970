//! Counts and lists the analyses of the sentence in the folder DIR by the grammar there, through libdowngrater. Prints count and effort, then one trace a
//! line, and ends with status 0; or R with the number and the place of the refusal, what it says on standard error, and status 1. A file that cannot be read,
//! a sentence file of even length and output that cannot be written are said on standard error, and end with status 1 too. With places after DIR, it takes
//! these in place of the sentence's words, with the node limit of its file: a place is a word, or the lowest and the highest that may have been said.
//!
//!     cd rust && cargo run --release -p downgrater --example call -- ../examples/pair
//!     cd rust && cargo run --release -p downgrater --example call -- ../examples/unclear 0 1-2 3-4

use std::error::Error;
use std::io::{self, BufWriter, Write};
use std::path::{Path, PathBuf};
use std::process::ExitCode;
use std::{env, fs};

use downgrater::{word, words, Answer, Calls};

const EFFORT_LIMIT: u64 = 1_000_000;

/// The place that is written as a word's number or as lowest-highest. What is no number of 16 bits is 65,535, which is no word.
fn place(text: &str) -> u32 {
    let number = |digits: &str| match digits.parse() {
        Ok(number) if !digits.starts_with('+') => number,
        _ => u16::MAX,
    };
    match text.split_once('-') {
        Some((lowest, highest)) => words(number(lowest), number(highest)),
        None => word(number(text)),
    }
}

/// The bytes of a file of the folder, or why they cannot be read.
fn load(dir: &Path, name: &str) -> Result<Vec<u8>, String> {
    let path = dir.join(name);
    fs::read(&path).map_err(|error| format!("{}: {error}", path.display()))
}

/// Prints the traces, from entry 0 on.
fn list(
    library: &dyn Calls,
    grammar: &[u8],
    sentence: &[u32],
    node_limit: u64,
    count: u32,
    out: &mut dyn Write,
) -> io::Result<()> {
    for m in 0..count as u64 {
        let mut trace = [0; 96];
        match library.entry(grammar, sentence, node_limit, EFFORT_LIMIT, m, &mut trace) {
            Answer::Accepted(steps) => {
                let numbers: Vec<String> =
                    trace[..steps as usize].iter().map(u16::to_string).collect();
                writeln!(out, "{}", numbers.join(" "))?;
            }
            other => return Err(io::Error::other(format!("entry {m}: {other:?}"))),
        }
    }
    Ok(())
}

fn run() -> Result<ExitCode, Box<dyn Error>> {
    let library = downgrater::library()?;
    let dir = env::args_os()
        .nth(1)
        .map_or(PathBuf::from("../examples/pair"), PathBuf::from);
    let grammar = load(&dir, "grammar")?;
    let bytes = load(&dir, "sentence")?;
    let [node_limit, pairs @ ..] = bytes.as_slice() else {
        return Err(format!("{}/sentence is empty", dir.display()).into());
    };
    if pairs.len() % 2 != 0 {
        let why = "has an even length: it is the node limit in one byte, and two bytes a word";
        return Err(format!("{}/sentence {why}", dir.display()).into());
    }
    let node_limit = *node_limit as u64;
    let mut sentence: Vec<u32> = env::args_os()
        .skip(2)
        .map(|text| place(&text.to_string_lossy()))
        .collect();
    if sentence.is_empty() {
        sentence = pairs
            .chunks_exact(2)
            .map(|pair| word(u16::from_le_bytes([pair[0], pair[1]])))
            .collect();
    }

    let mut out = BufWriter::new(io::stdout());
    match library.count(&grammar, &sentence, node_limit, EFFORT_LIMIT) {
        Answer::Counted { count, effort } => {
            writeln!(out, "{count} {effort}")?;
            list(
                library.as_ref(),
                &grammar,
                &sentence,
                node_limit,
                count,
                &mut out,
            )?;
            out.flush()?;
            Ok(ExitCode::SUCCESS)
        }
        Answer::Refused(refusal) => {
            writeln!(out, "R {} {}", refusal.number, refusal.place)?;
            out.flush()?;
            Err(refusal.to_string().into())
        }
        other => Err(format!("the count does not answer {other:?}").into()),
    }
}

fn main() -> ExitCode {
    run().unwrap_or_else(|error| {
        eprintln!("call: {error}");
        ExitCode::FAILURE
    })
}
