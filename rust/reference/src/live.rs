//! Live prefixes, one by one ("Counting and listing"): the effort, and those that are whole traces.

use crate::grammar::{Body, Grammar};
use crate::trace::{step, State};

pub struct Live {
    /// The number of live prefixes.
    pub effort: u64,
    /// The live prefixes that are traces of the sentence, in dictionary order.
    pub complete: Vec<Vec<u16>>,
}

/// All live prefixes for this node limit, or nothing where they are more than the effort limit.
pub fn live_prefixes(grammar: &Grammar, sentence: &[u32], node_limit: usize, effort_limit: u64) -> Option<Live> {
    let search = Search { grammar, sentence, node_limit, effort_limit };
    let mut live = Live { effort: 0, complete: vec![] };
    if search.visit(&mut vec![], &State::start(grammar), &mut live) {
        Some(live)
    } else {
        None
    }
}

struct Search<'a> {
    grammar: &'a Grammar,
    sentence: &'a [u32],
    node_limit: usize,
    effort_limit: u64,
}

impl Search<'_> {
    /// Visits a prefix and all that begin with it; false where the effort limit is passed.
    fn visit(&self, prefix: &mut Vec<u16>, state: &State, live: &mut Live) -> bool {
        if prefix.len() + state.queue.len() > self.node_limit {
            return true;
        }
        live.effort += 1;
        if live.effort > self.effort_limit {
            return false;
        }
        if state.queue.is_empty() && state.read == self.sentence.len() {
            live.complete.push(prefix.clone());
        }
        for rule in 0..self.grammar.rules.len() as u16 {
            // a step to a queue that is too long need not be tried
            if prefix.len() + state.queue.len() + self.daughters(rule) > self.node_limit {
                continue;
            }
            if let Ok(next) = step(self.grammar, self.sentence, state, rule, prefix.len()) {
                prefix.push(rule);
                let within = self.visit(prefix, &next, live);
                prefix.pop();
                if !within {
                    return false;
                }
            }
        }
        true
    }

    fn daughters(&self, rule: u16) -> usize {
        match &self.grammar.rules[rule as usize].body {
            Body::Lexical(_) => 0,
            Body::Nonlexical { daughters, .. } => daughters.len(),
        }
    }
}
