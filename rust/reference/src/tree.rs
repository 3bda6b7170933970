//! The tree checker: refusals 11, 29, 12, 13 and 19 to 22, yields, and the trace that belongs to an accepted tree.

use crate::calls::Refusal;
use crate::grammar::{Body, Grammar, Rule};
use crate::queue::{apply, start};
use crate::sentence::{fits, test_sentence};
use crate::trace::test_length;

#[derive(Clone, Debug, PartialEq, Eq)]
pub struct Tree {
    pub rule: u16,
    pub daughters: Vec<Tree>,
}

/// Reads the node at this place of the list, of the wanted category, and gives it with the place after it: 19, 13, 20.
fn read_node(grammar: &Grammar, list: &[u16], at: usize, wanted: usize) -> Result<(Tree, usize), Refusal> {
    let Some(&number) = list.get(at) else {
        return Err(Refusal::analysis(19, list.len()));
    };
    let Some(rule) = grammar.rules.get(number as usize) else {
        return Err(Refusal::analysis(13, at));
    };
    if rule.category != wanted {
        return Err(Refusal::analysis(20, at));
    }
    let (daughters, after) = read_daughters(grammar, list, at + 1, rule)?;
    Ok((Tree { rule: number, daughters }, after))
}

/// Reads the nodes of a rule's daughters, one after the other.
fn read_daughters(grammar: &Grammar, list: &[u16], at: usize, rule: &Rule) -> Result<(Vec<Tree>, usize), Refusal> {
    let mut nodes = Vec::new();
    let mut place = at;
    if let Body::Nonlexical { daughters, .. } = &rule.body {
        for &category in daughters {
            let (node, after) = read_node(grammar, list, place, category)?;
            nodes.push(node);
            place = after;
        }
    }
    Ok((nodes, place))
}

/// One word string for each component of the node's category.
pub fn yield_of(grammar: &Grammar, tree: &Tree) -> Vec<Vec<u16>> {
    let strings: Vec<Vec<Vec<u16>>> = tree.daughters.iter().map(|daughter| yield_of(grammar, daughter)).collect();
    joined(&grammar.rules[tree.rule as usize], &strings)
}

/// The yield of a node with this rule whose daughters have these yields.
pub fn joined(rule: &Rule, daughters: &[Vec<Vec<u16>>]) -> Vec<Vec<u16>> {
    match &rule.body {
        Body::Lexical(word) => vec![word.iter().copied().collect()],
        Body::Nonlexical { components, .. } => {
            components.iter().map(|component| component.iter().flat_map(|v| daughters[v.daughter][v.component].clone()).collect()).collect()
        }
    }
}

/// The tree of the list, which derives the sentence: or 11, 29, 12, 19, 13, 20, 21, 22.
pub fn check_tree(grammar: &Grammar, sentence: &[u32], list: &[u16]) -> Result<Tree, Refusal> {
    test_sentence(grammar, sentence)?;
    test_length(list)?;
    let (tree, after) = read_node(grammar, list, 0, grammar.start)?;
    if after != list.len() {
        return Err(Refusal::analysis(21, after));
    }
    if !fits(&yield_of(grammar, &tree)[0], sentence) {
        return Err(Refusal::analysis(22, 0));
    }
    Ok(tree)
}

/// The trace that belongs to an accepted tree.
pub fn tree_to_trace(grammar: &Grammar, sentence: &[u32], list: &[u16]) -> Result<Vec<u16>, Refusal> {
    let tree = check_tree(grammar, sentence, list)?;
    Ok(trace_of(grammar, &tree))
}

/// Each step applies the rule of the node that the front prediction stands for.
pub fn trace_of(grammar: &Grammar, tree: &Tree) -> Vec<u16> {
    let mut trace = Vec::new();
    let mut queue = start(grammar);
    while let Some(front) = queue.first() {
        let node = front.node.iter().fold(tree, |node, &position| &node.daughters[position]);
        trace.push(node.rule);
        queue = apply(grammar, &queue, &grammar.rules[node.rule as usize]);
    }
    trace
}
