//! One step of the recognizer ("One step"): predictions with their indices, and the queue before and after a rule.

use std::cmp::Ordering;

use crate::grammar::{Body, Grammar, Rule};

/// A string of digits 0 to 11.
pub type Index = Vec<u8>;

/// The way down from the root to a node: the daughter positions taken.
pub type Address = Vec<usize>;

#[derive(Clone, Debug, PartialEq, Eq)]
pub struct Prediction {
    pub category: usize,
    /// One index for each component.
    pub indices: Vec<Index>,
    /// The node of the tree that it stands for.
    pub node: Address,
}

/// Digit by digit, a proper prefix first.
pub fn compare(a: &Index, b: &Index) -> Ordering {
    a.cmp(b)
}

pub fn least(prediction: &Prediction) -> &Index {
    prediction.indices.iter().min_by(|a, b| compare(a, b)).expect("every category has a component")
}

/// The start category with the empty index.
pub fn start(grammar: &Grammar) -> Vec<Prediction> {
    vec![Prediction { category: grammar.start, indices: vec![vec![]], node: vec![] }]
}

/// The queue after a rule of the front prediction's category.
pub fn apply(grammar: &Grammar, queue: &[Prediction], rule: &Rule) -> Vec<Prediction> {
    let mut next = queue[1..].to_vec();
    if let Body::Nonlexical { .. } = rule.body {
        next.extend(daughters(grammar, &queue[0], rule));
        next.sort_by(|a, b| compare(least(a), least(b)));
        drop_common_digit(&mut next);
    }
    next
}

/// The predictions of the rule's daughters, each with its indices.
fn daughters(grammar: &Grammar, front: &Prediction, rule: &Rule) -> Vec<Prediction> {
    let Body::Nonlexical { daughters, components } = &rule.body else { return vec![] };
    let mut made: Vec<Prediction> = Vec::new();
    for (position, &category) in daughters.iter().enumerate() {
        let mut node = front.node.clone();
        node.push(position);
        made.push(Prediction { category, indices: vec![vec![]; grammar.dimensions[category]], node });
    }
    for (k, component) in components.iter().enumerate() {
        for (position, variable) in component.iter().enumerate() {
            let mut index = front.indices[k].clone();
            if component.len() != 1 {
                index.push(position as u8);
            }
            made[variable.daughter].indices[variable.component] = index;
        }
    }
    made
}

/// If every index begins with the same digit, that digit is dropped, one only.
fn drop_common_digit(queue: &mut [Prediction]) {
    let Some(&digit) = queue[0].indices[0].first() else { return };
    let all = queue.iter().flat_map(|prediction| &prediction.indices).all(|index| index.first() == Some(&digit));
    if all {
        for index in queue.iter_mut().flat_map(|prediction| &mut prediction.indices) {
            index.remove(0);
        }
    }
}
