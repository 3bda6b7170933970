//! The comparison shows that it can fail: every copy of the reference with a fault is found out, and the copies without one are not.

use std::num::NonZero;
use std::thread;

use reference::Reference;

use crate::cases::case;
use crate::compare::Pair;
use crate::fixed::fixed;
use crate::rng::Rng;
use crate::tally::Tally;

/// How many random cases a fault is looked for in, before the fixed inputs.
const CASES: u64 = 150;

pub fn self_test(seed: u64) -> bool {
    let unchanged = [("no fault", faulty::unchanged())];
    let mut clean = true;
    for (name, copy) in unchanged.into_iter().chain(faulty::harmless()) {
        let by = found(Pair::new(copy.as_ref()), seed);
        clean &= by.is_none();
        println!("{name}: {}", by.unwrap_or("no difference".to_string()));
    }
    let faults = all_found(seed);
    let missed = faults.iter().filter(|(_, by)| by.is_none()).count();
    for (name, by) in &faults {
        println!("{name}: {}", by.as_deref().unwrap_or("NOT FOUND"));
    }
    println!("{} of {} faults found", faults.len() - missed, faults.len());
    clean && missed == 0
}

/// Each fault in words, in the order of the list, with the first input that finds it. The faults are dealt out to as many threads as there
/// are processors.
fn all_found(seed: u64) -> Vec<(&'static str, Option<String>)> {
    let threads = thread::available_parallelism().map_or(1, NonZero::get);
    let mut faults: Vec<(usize, &str, Option<String>)> = thread::scope(|scope| {
        let parts: Vec<_> = (0..threads).map(|part| scope.spawn(move || found_in_part(seed, part, threads))).collect();
        parts.into_iter().flat_map(|part| part.join().expect("the comparison does not panic")).collect()
    });
    faults.sort_by_key(|&(number, ..)| number);
    faults.into_iter().map(|(_, name, by)| (name, by)).collect()
}

/// The faults of one part of so many, each with its number in the list.
fn found_in_part(seed: u64, part: usize, parts: usize) -> Vec<(usize, &'static str, Option<String>)> {
    let is_of_part = |number: usize| number % parts == part;
    let (calls, counts) = (faulty::faulty(), faulty::faulty_derivations());
    let first_count = calls.len();
    let mut faults = Vec::new();
    for (number, (name, copy)) in calls.into_iter().enumerate().filter(|&(number, _)| is_of_part(number)) {
        faults.push((number, name, found(Pair::new(copy.as_ref()), seed)));
    }
    for (number, (name, derivations)) in (first_count..).zip(counts).filter(|&(number, _)| is_of_part(number)) {
        faults.push((number, name, found(Pair { derivations, ..Pair::new(&Reference) }, seed)));
    }
    faults
}

/// The first input that finds a difference, in words.
fn found(mut pair: Pair, seed: u64) -> Option<String> {
    for number in 0..CASES {
        if let Err(difference) = case(&mut pair, &mut Rng::new(seed, number)) {
            return Some(format!("random case {number}, {:?}", difference.call));
        }
    }
    pair.tally = Tally::new();
    match fixed(&mut pair) {
        Err(difference) => Some(format!("fixed input {}, {:?}", pair.tally.inputs(), difference.call)),
        Ok(()) => None,
    }
}

#[cfg(test)]
mod tests {
    use super::*;

    /// Some random cases and the fixed inputs meet every refusal, and the reference does not differ from itself. At least half of the random
    /// sentences have single words.
    #[test]
    fn every_refusal_is_met() {
        let mut pair = Pair::new(&Reference);
        for number in 0..150 {
            assert!(case(&mut pair, &mut Rng::new(1, number)).is_ok());
        }
        assert!(pair.tally.single_words() >= pair.tally.unclear());
        assert!(fixed(&mut pair).is_ok());
        assert_eq!(pair.tally.missing(), Vec::<String>::new());
    }
}
