//! What the program prints for the files `grammar` and `sentence`, against the reference.

use std::fs;
use std::path::{Path, PathBuf};
use std::process::Command;

use reference::live::live_prefixes;
use reference::program::{output, sentence_file};
use reference::samples::PAIR;
use reference::sentence::{lowest, single_words};

use crate::analyses;
use crate::damage::damaged;
use crate::grammars::{self, Made};
use crate::rng::Rng;
use crate::sentences::any_words;
use crate::show::show_file;
use crate::tally::Tally;

const RUNS: u64 = 400;

/// Runs the program on many pairs of files; a report at the first difference.
pub fn compare(program: &str, seed: u64, tally: &mut Tally) -> Result<(), String> {
    let program = fs::canonicalize(program).map_err(|error| format!("{program}: {error}"))?;
    let folder = std::env::temp_dir().join(format!("downgrater-{}", std::process::id()));
    fs::create_dir_all(&folder).map_err(|error| error.to_string())?;
    let outcome = (0..RUNS).try_for_each(|run| {
        tally.programs += 1;
        let mut rng = Rng::new(seed, 1_000_000_007 + run);
        let (grammar, sentence) = match run {
            0 => too_much_effort(),
            1 => many_pages(),
            _ => files(&mut rng),
        };
        one(&program, &folder, grammar.as_deref(), sentence.as_deref()).map_err(|report| format!("program, run {run}: {report}"))
    });
    fs::remove_dir_all(&folder).map_err(|error| error.to_string())?;
    outcome
}

/// More than 1,000,000 live prefixes.
fn too_much_effort() -> (Option<Vec<u8>>, Option<Vec<u8>>) {
    (Some(Made::of_text(PAIR).file), Some(sentence_file(27, &[0; 14])))
}

/// A listing of 4,862 traces, which the program writes in several pieces.
fn many_pages() -> (Option<Vec<u8>>, Option<Vec<u8>>) {
    (Some(Made::of_text(PAIR).file), Some(sentence_file(19, &[0; 10])))
}

/// A grammar file and a sentence file, now and then damaged or not there.
fn files(rng: &mut Rng) -> (Option<Vec<u8>>, Option<Vec<u8>>) {
    let made = grammars::random(rng);
    let grammar = match rng.below(20) {
        0 => None,
        1..=5 => Some(damaged(rng, &made)),
        6 => Some([made.file.clone(), vec![0; 1 << 16]].concat()),
        _ => Some(made.file.clone()),
    };
    (grammar, sentence(rng, &made))
}

fn sentence(rng: &mut Rng, made: &Made) -> Option<Vec<u8>> {
    let analysis = analyses::random(rng, &made.grammar, 14);
    let (words, nodes) = match &analysis {
        Some(analysis) => (analysis.sentence.iter().map(|&place| lowest(place)).collect(), analysis.tree.len()),
        None => (any_words(rng, &made.grammar), 4),
    };
    // a node limit that the reference gets through
    let nodes = (1..=nodes).rev().find(|&n| live_prefixes(&made.grammar, &single_words(&words), n, 3_000).is_some()).unwrap_or(1) as u8;
    let file = sentence_file(nodes, &words);
    match rng.below(12) {
        0 => None,
        1 => Some(vec![]),
        2 => Some(file[..file.len() - 1].to_vec()),
        3 => Some(sentence_file(rng.pick(&[0, 97, 255]), &words)),
        4 => Some(sentence_file(nodes, &vec![0; rng.pick(&[97, 98, 40_000])])),
        5 => Some(vec![1; rng.pick(&[194, 195, 70_000, 70_001])]),
        6 => Some(sentence_file(nodes, &[&words[..], &[65_535]].concat())),
        _ => Some(file),
    }
}

fn one(program: &Path, folder: &Path, grammar: Option<&[u8]>, sentence: Option<&[u8]>) -> Result<(), String> {
    put(folder.join("grammar"), grammar)?;
    put(folder.join("sentence"), sentence)?;
    let run = Command::new(program).current_dir(folder).output().map_err(|error| error.to_string())?;
    let (grammar, sentence) = (grammar.unwrap_or(&[]), sentence.unwrap_or(&[]));
    let expected = output(grammar, sentence);
    if run.stdout == expected {
        return Ok(());
    }
    let text = |bytes: &[u8]| String::from_utf8_lossy(bytes).into_owned();
    Err(format!("printed\n{}expected\n{}sentence {sentence:?}\n{}", text(&run.stdout), text(&expected), show_file(grammar)))
}

/// Writes the file, or takes it away.
fn put(path: PathBuf, bytes: Option<&[u8]>) -> Result<(), String> {
    let outcome = match bytes {
        Some(bytes) => fs::write(&path, bytes),
        None if path.exists() => fs::remove_file(&path),
        None => Ok(()),
    };
    outcome.map_err(|error| format!("{}: {error}", path.display()))
}
