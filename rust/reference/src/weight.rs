//! Weighing (document 02, paper 1): "Two new calls, tested as the trace and the tree checker, give as verdict an accepted analysis's sum
//! of weights, one for each step or node."

use crate::calls::Refusal;
use crate::grammar::Grammar;
use crate::trace::check_trace;
use crate::tree::{check_tree, Tree};

/// The trace checker's refusal, or the sum taken along the trace.
pub fn weigh_trace(grammar: &Grammar, sentence: &[u32], trace: &[u16]) -> Result<usize, Refusal> {
    check_trace(grammar, sentence, trace)?;
    Ok(trace.iter().map(|&rule| weight_of(grammar, rule)).sum())
}

/// The tree checker's refusal, or the sum taken along the tree.
pub fn weigh_tree(grammar: &Grammar, sentence: &[u32], list: &[u16]) -> Result<usize, Refusal> {
    let tree = check_tree(grammar, sentence, list)?;
    Ok(sum_from(grammar, &tree))
}

/// The weight of this node, and those of all nodes below it.
fn sum_from(grammar: &Grammar, node: &Tree) -> usize {
    let below: usize = node.daughters.iter().map(|daughter| sum_from(grammar, daughter)).sum();
    weight_of(grammar, node.rule) + below
}

fn weight_of(grammar: &Grammar, rule: u16) -> usize {
    grammar.rules[rule as usize].weight as usize
}
