//! The library and plain Rust in one process, in turns, best of several runs, both built for release: nanoseconds per live prefix of
//! `dg_count` and of the same search, nanoseconds a block and a file of `dg_read_grammar` and of the same reader, nanoseconds a call of the
//! four calls on dates and of the same calls, and nanoseconds a call of `dg_make_grammar` and of the same making. The time of the library's
//! count includes its tests of the grammar file, that of the search does not.

mod dates;
mod files;
mod inputs;
mod lexicons;
mod reader;
mod search;

use std::env;
use std::hint::black_box;
use std::time::Instant;

use reference::file::{read, BLOCK};
use reference::lexicon_notation::WrittenLexicon;
use reference::notation::grammar_file;
use reference::samples::{full_lexicon, QUESTION};
use reference::{Answer, Calls, Date, Refusal};

use inputs::Input;
use search::Table;

const EFFORT_LIMIT: u64 = 1_000_000_000;

/// How often a file is read in one run.
const READINGS: u64 = 200;

/// How often a grammar is made in one run.
const MAKINGS: u64 = 50;

/// How many days the span has.
const DAYS: u64 = 146_097;

fn main() {
    let runs = env::args().nth(1).and_then(|word| word.parse().ok()).unwrap_or(7);
    let library = downgrater::library();
    if let Err(missing) = &library {
        println!("plain Rust alone: {missing}");
    }
    let library = library.ok();
    println!("best of {runs} runs, ns per live prefix");
    println!("{:<12}{:>6}{:>6}{:>10}{:>12}{:>10}{:>10}{:>8}", "grammar", "words", "N", "count", "effort", "library", "rust", "ratio");
    for input in inputs::inputs() {
        counting(&input, library.as_deref(), runs);
    }
    println!("\nby length of the sentence");
    for input in inputs::growing() {
        counting(&input, library.as_deref(), runs);
    }
    println!("\nthe reader, ns a block");
    println!("{:<12}{:>8}{:>10}{:>10}{:>8}", "file", "blocks", "library", "rust", "ratio");
    let read: Vec<(&str, Times)> =
        files::full().iter().map(|(name, file)| (*name, reading(name, file, library.as_deref(), runs))).collect();
    println!("\nthe reader, ns a file of 256 rules");
    println!("{:<12}{:>10}{:>10}{:>8}", "file", "library", "rust", "ratio");
    for (name, times) in read {
        println!("{:<12}{}", name, times.columns(0));
    }
    println!("\ndates, ns a call");
    println!("{:<12}{:>10}{:>10}{:>8}", "call", "library", "rust", "ratio");
    on_dates(library.as_deref(), runs);
    println!("\nthe grammar of a lexicon, ns a call");
    println!("{:<12}{:>12}{:>8}{:>12}{:>10}{:>8}", "lexicon", "categories", "rules", "library", "rust", "ratio");
    let question = WrittenLexicon::new(QUESTION);
    making("question", &question.bytes, question.word_count(), question.category("C"), library.as_deref(), runs);
    making("full", &full_lexicon(17, 3), 40, 1, library.as_deref(), runs);
}

/// The best time of each side in nanoseconds.
struct Times {
    library: Option<f64>,
    rust: f64,
}

/// Runs both sides in turns. A run is so many calls, and a call so many units of work; the times are those of a unit.
fn in_turns(runs: usize, calls: u64, units: u64, rust: impl Fn(), library: Option<impl Fn()>) -> Times {
    let run = |call: &dyn Fn()| {
        let start = Instant::now();
        for _ in 0..calls {
            call();
        }
        start.elapsed().as_nanos() as f64 / (calls * units) as f64
    };
    let mut times = Times { library: None, rust: f64::INFINITY };
    for _ in 0..runs {
        times.rust = times.rust.min(run(&rust));
        if let Some(library) = &library {
            let time = run(library);
            times.library = Some(times.library.map_or(time, |best| best.min(time)));
        }
    }
    times
}

impl Times {
    /// Library, plain Rust and their ratio, in columns, the times with so many decimals.
    fn columns(&self, decimals: usize) -> String {
        let shown = |number: Option<f64>, decimals: usize| number.map_or("-".to_string(), |number| format!("{number:.decimals$}"));
        let ratio = self.library.map(|time| time / self.rust);
        format!("{:>10}{:>10}{:>8}", shown(self.library, decimals), shown(Some(self.rust), decimals), shown(ratio, 2))
    }

    /// The times of so many units.
    fn of_units(&self, units: u64) -> Times {
        Times { library: self.library.map(|time| time * units as f64), rust: self.rust * units as f64 }
    }
}

fn counting((name, text, sentence, node_limit): &Input, library: Option<&dyn Calls>, runs: usize) {
    let file = grammar_file(text);
    let grammar = read(&file).expect("the reader takes it");
    let table = Table::new(&grammar);
    let (count, effort) = search::count(&table, grammar.start, sentence, *node_limit, EFFORT_LIMIT).expect("the limit suffices");
    let rust = || {
        let found = search::count(&table, grammar.start, sentence, *node_limit, EFFORT_LIMIT);
        assert_eq!(found, Some((count, effort)));
    };
    let library = library.map(|library| {
        || {
            let answer = library.count(&file, sentence, *node_limit as u64, EFFORT_LIMIT);
            assert_eq!(answer, Answer::Counted { count: count as u32, effort: effort as u32 }, "{name}");
        }
    });
    // short searches are repeated, so that a run takes some milliseconds
    let times = in_turns(runs, (200_000 / effort).max(1), effort, rust, library);
    println!("{:<12}{:>6}{:>6}{:>10}{:>12}{}", name, sentence.len(), node_limit, count, effort, times.columns(2));
}

/// Prints the times of a block, and gives those of the file.
fn reading(name: &str, file: &[u8], library: Option<&dyn Calls>, runs: usize) -> Times {
    let rules = reader::read(file).expect("the reader takes it");
    let blocks = (file.len() / BLOCK) as u64;
    let rust = || assert_eq!(reader::read(black_box(file)), Ok(rules));
    let library = library.map(|library| || assert_eq!(library.read_grammar(black_box(file)), Answer::Accepted(rules), "{name}"));
    let times = in_turns(runs, READINGS, blocks, rust, library);
    println!("{:<12}{:>8}{}", name, blocks, times.columns(2));
    times.of_units(blocks)
}

/// Makes the grammar of a lexicon, with an output that has room for every file.
fn making(name: &str, lexicon: &[u8], words: u32, start: u32, library: Option<&dyn Calls>, runs: usize) {
    let mut out = [0; 14 * BLOCK];
    let length = lexicons::make(lexicon, words, start, &mut out).expect("the lexicon is made");
    let grammar = read(&out[..length as usize]).expect("the reader takes it");
    let rust = || {
        let mut out = [0; 14 * BLOCK];
        assert_eq!(lexicons::make(black_box(lexicon), words, start, &mut out), Ok(length));
        black_box(&out);
    };
    let library = library.map(|library| {
        || {
            let mut out = [0; 14 * BLOCK];
            assert_eq!(library.make_grammar(black_box(lexicon), words, start, &mut out), Answer::Accepted(length), "{name}");
            black_box(&out);
        }
    });
    let times = in_turns(runs, MAKINGS, 1, rust, library);
    println!("{:<12}{:>12}{:>8}  {}", name, grammar.dimensions.len(), grammar.rules.len(), times.columns(0));
}

/// Each call on every day of the span, in one run; of the calls with a term, the terms from 0 to 600 one after the other.
fn on_dates(library: Option<&dyn Calls>, runs: usize) {
    let all: Vec<(u64, Date)> = (0..DAYS).map(|number| (number, dates::date_of(number).expect("a day of the span"))).collect();
    let term = |number: u64| number % 601;
    let accepted = |outcome: Result<u32, Refusal>| outcome.map_or_else(Answer::Refused, Answer::Accepted);
    let measured = |name: &str, rust: &dyn Fn(u64, Date) -> Answer, call: &dyn Fn(&dyn Calls, u64, Date) -> Answer| {
        let each = |one: &dyn Fn(u64, Date) -> Answer| {
            for &(number, date) in &all {
                black_box(one(black_box(number), black_box(date)));
            }
        };
        let library = library.map(|library| move || each(&|number, date| call(library, number, date)));
        let times = in_turns(runs, 1, DAYS, || each(rust), library);
        println!("{:<12}{}", name, times.columns(2));
    };
    measured("day_number", &|_, date| accepted(dates::day_number(date)), &|library, _, date| library.day_number(date));
    measured("date_of", &|number, _| dates::date_of(number).map_or_else(Answer::Refused, Answer::Dated), &|library, number, _| {
        library.date_of(number)
    });
    measured("opening_day", &|number, date| accepted(dates::opening_day(date, term(number))), &|library, number, date| {
        library.opening_day(date, term(number))
    });
    measured("is_open", &|number, date| accepted(dates::is_open(date, term(number), number)), &|library, number, date| {
        library.is_open(date, term(number), number)
    });
}
