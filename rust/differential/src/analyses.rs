//! Random derivation trees with their sentences and traces, and lists with something changed.

use reference::grammar::{Body, Grammar, Rule};
use reference::sentence::single_words;
use reference::tree::{joined, tree_to_trace};

use crate::rng::Rng;
use crate::sentences::widened;

/// A sentence, a tree and a trace; as `random` makes them, the sentence has single words, the tree derives it and the trace is that of the
/// tree.
#[derive(Clone)]
pub struct Analysis {
    pub sentence: Vec<u32>,
    pub tree: Vec<u16>,
    pub trace: Vec<u16>,
}

impl Analysis {
    /// The same tree and trace, half of the time with wider places, which they fit.
    pub fn heard(&self, rng: &mut Rng, grammar: &Grammar) -> Analysis {
        let mut heard = self.clone();
        if rng.chance(50) {
            heard.sentence = widened(rng, grammar, &self.sentence);
        }
        heard
    }
}

/// A random tree of at most this many nodes, or nothing where the start category has no tree as small.
pub fn random(rng: &mut Rng, grammar: &Grammar, most: usize) -> Option<Analysis> {
    let least = least_nodes(grammar);
    if least[grammar.start] > most {
        return None;
    }
    // mostly the largest of some, since a random tree is small more often than not
    let tries = rng.pick(&[1, 3, 6, 10]);
    let trees = (0..tries).map(|_| node(rng, grammar, &least, grammar.start, most));
    let (tree, strings) = trees.max_by_key(|(tree, _)| tree.len()).expect("one at least");
    let sentence = single_words(&strings[0]);
    let trace = tree_to_trace(grammar, &sentence, &tree).expect("the tree derives its yield");
    Some(Analysis { sentence, tree, trace })
}

fn daughters(rule: &Rule) -> &[usize] {
    match &rule.body {
        Body::Lexical(_) => &[],
        Body::Nonlexical { daughters, .. } => daughters,
    }
}

/// The number of nodes of a smallest tree of each category; past any limit where it has none.
fn least_nodes(grammar: &Grammar) -> Vec<usize> {
    let mut least = vec![1_000_000; grammar.dimensions.len()];
    loop {
        let before = least.clone();
        for rule in &grammar.rules {
            let nodes = 1 + daughters(rule).iter().map(|&d| least[d]).sum::<usize>();
            least[rule.category] = least[rule.category].min(nodes);
        }
        if least == before {
            return least;
        }
    }
}

/// A tree of this category with at most `most` nodes, which suffice, and its yield.
fn node(rng: &mut Rng, grammar: &Grammar, least: &[usize], category: usize, most: usize) -> (Vec<u16>, Vec<Vec<u16>>) {
    let needs = |rule: &Rule| 1 + daughters(rule).iter().map(|&d| least[d]).sum::<usize>();
    let fits = |rule: &Rule| rule.category == category && needs(rule) <= most;
    let rules: Vec<usize> = (0..grammar.rules.len()).filter(|&r| fits(&grammar.rules[r])).collect();
    let inner: Vec<usize> = rules.iter().copied().filter(|&r| !daughters(&grammar.rules[r]).is_empty()).collect();
    let number = if !inner.is_empty() && rng.chance(60) { rng.pick(&inner) } else { rng.pick(&rules) };
    let rule = &grammar.rules[number];
    let mut spare = most - needs(rule);
    let mut list = vec![number as u16];
    let mut strings = Vec::new();
    for &daughter in daughters(rule) {
        let extra = if rng.chance(30) { spare } else { rng.below(spare + 1) };
        let (part, string) = node(rng, grammar, least, daughter, least[daughter] + extra);
        spare -= extra.min(part.len().saturating_sub(least[daughter]));
        list.extend(part);
        strings.push(string);
    }
    (list, joined(rule, &strings))
}

/// The trace or tree with one to three changes.
pub fn changed_list(rng: &mut Rng, grammar: &Grammar, list: &[u16]) -> Vec<u16> {
    let rules = grammar.rules.len();
    let mut changed = list.to_vec();
    for _ in 0..rng.pick(&[1, 1, 1, 2, 3]) {
        let n = changed.len();
        if n == 0 {
            changed.push(rng.below(rules) as u16);
            continue;
        }
        let i = rng.below(n);
        match rng.below(12) {
            0 => changed[i] = rng.below(rules) as u16,
            1..=3 => changed[i] = like(rng, grammar, changed[i]),
            4 => changed[i] = rng.pick(&[rules as u16, 256, 65_535, changed[i].wrapping_add(256)]),
            5 => changed.swap(i, n - 1),
            6 => {
                let j = rng.below(n);
                changed.swap(i, j);
            }
            7 => drop(changed.remove(i)),
            8 => changed.insert(i, rng.below(rules) as u16),
            9 => changed.push(rng.below(rules + 1) as u16),
            10 => changed.truncate(i),
            _ => changed.truncate(n - 1),
        }
    }
    changed
}

/// A rule of the same category.
fn like(rng: &mut Rng, grammar: &Grammar, number: u16) -> u16 {
    let Some(rule) = grammar.rules.get(number as usize) else { return number };
    let others: Vec<usize> = (0..grammar.rules.len()).filter(|&r| grammar.rules[r].category == rule.category).collect();
    rng.pick(&others) as u16
}

/// A list of rule numbers at random, short, long or over 96.
pub fn any_list(rng: &mut Rng, grammar: &Grammar) -> Vec<u16> {
    let n = rng.pick(&[0, 1, 2, 3, 4, 6, 10, 95, 96, 97, 98, 150]);
    (0..n).map(|_| rng.below(grammar.rules.len() + 1) as u16).collect()
}
