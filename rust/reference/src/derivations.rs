//! Derivation trees, one by one and without the recognizer: all trees of a category with a number of nodes, with their yields.

use std::rc::Rc;

use crate::grammar::{Body, Grammar};
use crate::sentence::fits;
use crate::tree::joined;

/// A tree as a list, and its yield.
#[derive(Clone)]
struct Derived {
    list: Vec<u16>,
    strings: Vec<Vec<u16>>,
}

/// The lists of all trees with at most this many nodes that derive the sentence, or nothing where looking for them takes more than
/// `most` steps of putting trees together.
pub fn trees_of(grammar: &Grammar, sentence: &[u32], node_limit: usize, most: usize) -> Option<Vec<Vec<u16>>> {
    let made = vec![vec![None; node_limit + 1]; grammar.dimensions.len()];
    let mut trees = Trees { grammar, sentence, most, made };
    let mut found = Vec::new();
    for nodes in 1..=node_limit {
        for tree in trees.of(grammar.start, nodes)?.iter() {
            if fits(&tree.strings[0], sentence) {
                found.push(tree.list.clone());
            }
        }
    }
    Some(found)
}

struct Trees<'a> {
    grammar: &'a Grammar,
    sentence: &'a [u32],
    most: usize,
    /// By category and number of nodes, as far as known.
    made: Vec<Vec<Option<Rc<Vec<Derived>>>>>,
}

impl Trees<'_> {
    /// All trees of a category with exactly this many nodes, but for those with a string that fits no part of the sentence: no tree
    /// that derives the sentence has them in it.
    fn of(&mut self, category: usize, nodes: usize) -> Option<Rc<Vec<Derived>>> {
        if let Some(known) = &self.made[category][nodes] {
            return Some(known.clone());
        }
        let mut all = Vec::new();
        for (number, rule) in self.grammar.rules.iter().enumerate() {
            if rule.category != category {
                continue;
            }
            let daughters = match &rule.body {
                Body::Lexical(_) => &[][..],
                Body::Nonlexical { daughters, .. } => daughters,
            };
            for parts in self.rows(daughters, nodes - 1)? {
                let strings: Vec<_> = parts.iter().map(|part| part.strings.clone()).collect();
                let strings = joined(rule, &strings);
                if strings.iter().all(|string| occurs(string, self.sentence)) {
                    let mut list = vec![number as u16];
                    list.extend(parts.iter().flat_map(|part| &part.list));
                    all.push(Derived { list, strings });
                }
            }
        }
        let all = Rc::new(all);
        self.made[category][nodes] = Some(all.clone());
        Some(all)
    }

    /// All rows of trees, one of each category in turn, with exactly this many nodes together.
    fn rows(&mut self, categories: &[usize], nodes: usize) -> Option<Vec<Vec<Derived>>> {
        let Some((&first, others)) = categories.split_first() else {
            return Some(if nodes == 0 { vec![vec![]] } else { vec![] });
        };
        let mut rows = Vec::new();
        for size in 1..(nodes + 1).saturating_sub(others.len()) {
            let heads = self.of(first, size)?;
            if heads.is_empty() {
                continue;
            }
            self.spend()?;
            for tail in self.rows(others, nodes - size)? {
                for head in heads.iter() {
                    self.spend()?;
                    let mut row = vec![head.clone()];
                    row.extend(tail.iter().cloned());
                    rows.push(row);
                }
            }
        }
        Some(rows)
    }

    fn spend(&mut self) -> Option<()> {
        self.most = self.most.checked_sub(1)?;
        Some(())
    }
}

/// Whether the string fits a part of the sentence, in one piece.
pub fn occurs(string: &[u16], sentence: &[u32]) -> bool {
    string.is_empty() || sentence.windows(string.len()).any(|window| fits(string, window))
}
