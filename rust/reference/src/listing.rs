//! Count and listing: the trees that derive the sentence, their traces in dictionary order, and the effort.

use crate::calls::Refusal;
use crate::derivations::trees_of;
use crate::grammar::Grammar;
use crate::live::live_prefixes;
use crate::sentence::{test_sentence, MOST};
use crate::tree::tree_to_trace;

/// Trees are looked for in at most this many steps. Past it the complete live prefixes are the listing; the tests show that both are
/// the same wherever both are known.
const MOST_STEPS: usize = 5_000;

pub struct Listing {
    pub effort: u64,
    pub traces: Vec<Vec<u16>>,
}

/// 24, 11, 29, 25, or the listing.
pub fn listing(grammar: &Grammar, sentence: &[u32], node_limit: u64, effort_limit: u64) -> Result<Listing, Refusal> {
    if !(1..=MOST as u64).contains(&node_limit) || !(1..=1_000_000_000).contains(&effort_limit) {
        return Err(Refusal::desk(24));
    }
    test_sentence(grammar, sentence)?;
    let Some(live) = live_prefixes(grammar, sentence, node_limit as usize, effort_limit) else {
        return Err(Refusal::desk(25));
    };
    let traces = traces_of_trees(grammar, sentence, node_limit as usize, MOST_STEPS);
    Ok(Listing { effort: live.effort, traces: traces.unwrap_or(live.complete) })
}

/// The traces of all trees that derive the sentence, in dictionary order, or nothing where the trees are too many to look through.
pub fn traces_of_trees(grammar: &Grammar, sentence: &[u32], node_limit: usize, most: usize) -> Option<Vec<Vec<u16>>> {
    let trees = trees_of(grammar, sentence, node_limit, most)?;
    let traces: Result<Vec<_>, _> = trees.iter().map(|tree| tree_to_trace(grammar, sentence, tree)).collect();
    let mut traces = traces.expect("an enumerated tree derives the sentence");
    traces.sort();
    Some(traces)
}

/// Entry m: 24, 11, 29, 25, 26, or the trace.
pub fn entry(grammar: &Grammar, sentence: &[u32], node_limit: u64, effort_limit: u64, m: u64) -> Result<Vec<u16>, Refusal> {
    let traces = listing(grammar, sentence, node_limit, effort_limit)?.traces;
    if m >= traces.len() as u64 {
        return Err(Refusal::desk(26));
    }
    Ok(traces[m as usize].clone())
}
