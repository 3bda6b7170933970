//! The trace checker: refusals 11, 29 and 12 to 18, and the tree that belongs to an accepted trace.

use std::collections::BTreeMap;

use crate::calls::Refusal;
use crate::grammar::{Body, Grammar};
use crate::queue::{apply, start, Address, Prediction};
use crate::sentence::{takes, test_sentence, MOST};

/// Where the recognizer stands: the queue, and how many words are read.
#[derive(Clone, Debug)]
pub struct State {
    pub queue: Vec<Prediction>,
    pub read: usize,
}

impl State {
    pub fn start(grammar: &Grammar) -> State {
        State { queue: start(grammar), read: 0 }
    }
}

/// 12: a trace or tree over 96.
pub fn test_length(list: &[u16]) -> Result<(), Refusal> {
    if list.len() > MOST {
        return Err(Refusal::analysis(12, 0));
    }
    Ok(())
}

/// Step k with this rule: 13 to 16, or the state after it.
pub fn step(grammar: &Grammar, sentence: &[u32], state: &State, rule: u16, k: usize) -> Result<State, Refusal> {
    let Some(applied) = grammar.rules.get(rule as usize) else {
        return Err(Refusal::analysis(13, k));
    };
    let Some(front) = state.queue.first() else {
        return Err(Refusal::analysis(14, k));
    };
    if applied.category != front.category {
        return Err(Refusal::analysis(15, k));
    }
    let mut read = state.read;
    if let Body::Lexical(Some(word)) = applied.body {
        if !sentence.get(read).is_some_and(|&place| takes(place, word)) {
            return Err(Refusal::analysis(16, k));
        }
        read += 1;
    }
    Ok(State { queue: apply(grammar, &state.queue, applied), read })
}

/// Runs the whole trace: 11, 29, 12 to 18, or the nodes of its tree with their rules.
pub fn check_trace(grammar: &Grammar, sentence: &[u32], trace: &[u16]) -> Result<BTreeMap<Address, u16>, Refusal> {
    test_sentence(grammar, sentence)?;
    test_length(trace)?;
    let n = trace.len();
    if n == 0 {
        return Err(Refusal::analysis(17, 0));
    }
    let mut nodes = BTreeMap::new();
    let mut state = State::start(grammar);
    for (k, &rule) in trace.iter().enumerate() {
        let next = step(grammar, sentence, &state, rule, k)?;
        nodes.insert(state.queue[0].node.clone(), rule);
        if next.queue.len() > n - k - 1 {
            return Err(Refusal::analysis(17, k + 1));
        }
        state = next;
    }
    if state.read != sentence.len() {
        return Err(Refusal::analysis(18, state.read));
    }
    Ok(nodes)
}

/// The list of the tree that belongs to an accepted trace. In the order of addresses a parent stands before its daughters, and the
/// daughters in rule order.
pub fn trace_to_tree(grammar: &Grammar, sentence: &[u32], trace: &[u16]) -> Result<Vec<u16>, Refusal> {
    let nodes = check_trace(grammar, sentence, trace)?;
    Ok(nodes.into_values().collect())
}
