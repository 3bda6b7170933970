//! Compares the proved library with the reference, call by call. `differential --help` says how.

mod analyses;
mod cases;
mod compare;
mod damage;
mod dates;
mod fixed;
mod fixed_lexicons;
mod grammars;
mod lexicons;
mod minimalist;
mod options;
mod orders;
mod printed;
mod rng;
mod self_test;
mod sentences;
mod show;
mod tally;
mod unclear;
mod weights;

use std::process::ExitCode;
use std::time::Instant;

use reference::{Calls, Reference};

use compare::Pair;
use options::{Options, USAGE};
use rng::Rng;

fn main() -> ExitCode {
    let Some(options) = options::options() else {
        eprintln!("{USAGE}");
        return ExitCode::FAILURE;
    };
    let right = if options.self_test {
        self_test::self_test(options.seed)
    } else if options.itself {
        run(&Reference, &options)
    } else {
        match downgrater::library() {
            Ok(library) => run(library.as_ref(), &options),
            Err(missing) => {
                eprintln!("differential: {missing}");
                false
            }
        }
    };
    if right {
        ExitCode::SUCCESS
    } else {
        ExitCode::FAILURE
    }
}

/// Compares on fixed and random inputs and prints what was met; false where there is a difference or something was never met.
fn run(tested: &dyn Calls, options: &Options) -> bool {
    let start = Instant::now();
    let mut pair = Pair::new(tested);
    let mut case = options.case.unwrap_or(0);
    if options.case.is_none() {
        if let Err(difference) = fixed::fixed(&mut pair) {
            println!("fixed inputs: {difference}");
            return false;
        }
        if let Some(program) = &options.program {
            if let Err(report) = printed::compare(program, options.seed, &mut pair.tally) {
                println!("{report}");
                return false;
            }
        }
    }
    loop {
        if let Err(difference) = cases::case(&mut pair, &mut Rng::new(options.seed, case)) {
            println!("seed {} case {case}: {difference}", options.seed);
            return false;
        }
        case += 1;
        let done = match (options.case, options.cases) {
            (Some(_), _) => return true,
            (None, Some(cases)) => case >= cases,
            (None, None) => start.elapsed() >= options.time,
        };
        if done {
            break;
        }
    }
    let tally = &pair.tally;
    print!("{tally}");
    println!("{} round trips, {} listings by trees and by live prefixes", tally.round_trips, tally.agreements);
    println!(
        "{} sums along a trace and along its tree, the highest {}; {} grammars with other weights",
        tally.sums, tally.highest_sum, tally.reweighed
    );
    println!(
        "{} sentences of single words, {} with unclear places; {} unclear sentences beside their clear ones, {} of them with several analysed",
        tally.single_words(), tally.unclear(), tally.unclear_listings, tally.listings_of_several
    );
    println!("{} doubles in another order of their daughters, {} near misses", tally.doubles_in_another_order(), tally.near_misses);
    println!("{} days both ways, {} terms beside the next longer one", tally.days_both_ways(), tally.terms);
    println!("{}", tally.lexicons());
    println!("{} counts of made grammars beside the derivations, {} above 0", tally.derivations_compared(), tally.derivations_found());
    if options.program.is_some() {
        println!("{} runs of the program", tally.programs);
    }
    println!("{} inputs compared, {case} random cases, {:.1} s, no difference", tally.inputs(), start.elapsed().as_secs_f64());
    for missing in tally.missing() {
        println!("failed: {missing}");
    }
    tally.missing().is_empty()
}
