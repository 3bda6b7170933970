//! The command line.

use std::env;
use std::time::Duration;

pub const USAGE: &str = "differential [--seconds N | --long | --cases N] [--seed S] [--case K] [--program FILE] [--itself] [--self-test]

compares libdowngrater with the reference on fixed inputs and then on random cases, for about 60 seconds
  --seconds N     random cases for so long (--long: 1,800 seconds)
  --cases N       so many random cases, however long they take
  --seed S        other random cases
  --case K        random case K of the seed alone
  --program FILE  compares what the program FILE prints as well
  --itself        compares the reference with itself, where there is no library
  --self-test     compares copies of the reference with one fault each, and fails if a fault is not found";

pub struct Options {
    pub time: Duration,
    pub cases: Option<u64>,
    pub seed: u64,
    pub case: Option<u64>,
    pub program: Option<String>,
    pub itself: bool,
    pub self_test: bool,
}

/// The options, or nothing where the command line is not understood.
pub fn options() -> Option<Options> {
    let mut options =
        Options { time: Duration::from_secs(60), cases: None, seed: 1, case: None, program: None, itself: false, self_test: false };
    let mut words = env::args().skip(1);
    while let Some(word) = words.next() {
        match word.as_str() {
            "--seconds" => options.time = Duration::from_secs(words.next()?.parse().ok()?),
            "--long" => options.time = Duration::from_secs(1800),
            "--cases" => options.cases = Some(words.next()?.parse().ok()?),
            "--seed" => options.seed = words.next()?.parse().ok()?,
            "--case" => options.case = Some(words.next()?.parse().ok()?),
            "--program" => options.program = Some(words.next()?),
            "--itself" => options.itself = true,
            "--self-test" => options.self_test = true,
            _ => return None,
        }
    }
    Some(options)
}
