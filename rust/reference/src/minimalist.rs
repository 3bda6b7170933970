//! Minimalist derivations (document 02, paper 6) without a grammar: expressions made of a lexicon's entries by merge and move, all with a
//! number of nodes, none left out because of its features.

use std::collections::BTreeMap;

use crate::derivations::occurs;
use crate::lexicon::{Feature, Lexicon};
use crate::sentence::fits;

/// Features that are still to be checked, and words.
#[derive(Clone, Debug, PartialEq, Eq, PartialOrd, Ord)]
struct Chain {
    features: Vec<Feature>,
    string: Vec<u16>,
}

#[derive(Clone, Debug, PartialEq, Eq, PartialOrd, Ord)]
struct Expression {
    is_entry: bool,
    head: Chain,
    moving: Vec<Chain>,
}

/// A count of derivations: `derivations`, or a copy of it with a fault.
pub type Derivations = fn(&Lexicon, &[u32], usize, usize) -> Option<u64>;

/// The expressions with one number of nodes, each with the number of its derivations.
type Level = BTreeMap<Expression, u64>;

/// "the number of minimalist derivations of the wanted category that fit it and have fewer nodes than N, each entry, merge or move being a
/// node", or nothing where looking for them takes more than `most` tries of merging two expressions.
pub fn derivations(lexicon: &Lexicon, sentence: &[u32], node_limit: usize, most: usize) -> Option<u64> {
    let mut left = most;
    let mut levels: Vec<Level> = vec![Level::new()];
    for nodes in 1..node_limit {
        let level = level(lexicon, sentence, &levels, nodes, &mut left)?;
        levels.push(level);
    }
    let is_wanted = |expression: &Expression| expression.head.features == [lexicon.start] && expression.moving.is_empty();
    let fitting = levels.iter().flatten().filter(|(expression, _)| is_wanted(expression) && fits(&expression.head.string, sentence));
    Some(fitting.fold(0, |sum, (_, number)| sum.saturating_add(*number)))
}

/// All expressions with exactly this many nodes, from those with fewer, but for those with a string that fits no part of the sentence: no
/// derivation that fits the sentence has them in it.
fn level(lexicon: &Lexicon, sentence: &[u32], lower: &[Level], nodes: usize, left: &mut usize) -> Option<Level> {
    let mut level = Level::new();
    let mut keep = |expression: Expression, number: u64| {
        if occurs(&expression.head.string, sentence) && expression.moving.iter().all(|chain| occurs(&chain.string, sentence)) {
            let known = level.entry(expression).or_insert(0);
            *known = known.saturating_add(number);
        }
    };
    if nodes == 1 {
        for entry in &lexicon.entries {
            let head = Chain { features: entry.features.clone(), string: entry.word.into_iter().collect() };
            keep(Expression { is_entry: true, head, moving: vec![] }, 1);
        }
        return Some(level);
    }
    for selecting in 1..nodes - 1 {
        *left = left.checked_sub(lower[selecting].len() * lower[nodes - 1 - selecting].len())?;
        for (one, number) in &lower[selecting] {
            for (other, others) in &lower[nodes - 1 - selecting] {
                if let Some(merged) = merge(one, other) {
                    keep(merged, number.saturating_mul(*others));
                }
            }
        }
    }
    for (one, number) in &lower[nodes - 1] {
        if let Some(moved) = move_once(one) {
            keep(moved, *number);
        }
    }
    Some(level)
}

/// The first expression selects the second, which moves later if it has features left, and otherwise stands to the right of an entry and to
/// the left of anything else.
fn merge(one: &Expression, other: &Expression) -> Option<Expression> {
    match (one.head.features.first()?, other.head.features.first()?) {
        (Feature::Selector(wanted), Feature::Category(given)) if wanted == given => {}
        _ => return None,
    }
    let mut merged = Expression { is_entry: false, ..one.clone() };
    merged.head.features.remove(0);
    let mut selected = other.head.clone();
    selected.features.remove(0);
    if !selected.features.is_empty() {
        merged.moving.push(selected);
    } else if one.is_entry {
        merged.head.string.extend(selected.string);
    } else {
        merged.head.string.splice(0..0, selected.string);
    }
    merged.moving.extend(other.moving.iter().cloned());
    Some(merged)
}

/// The one moving chain that begins with the licensee of the head's licensor moves: it lands on the left if it has no features left, and
/// otherwise goes on moving.
fn move_once(one: &Expression) -> Option<Expression> {
    let Feature::Licensor(licensor) = one.head.features.first()? else { return None };
    let begins_with_licensee = |chain: &Chain| chain.features.first() == Some(&Feature::Licensee(*licensor));
    let place = one.moving.iter().position(begins_with_licensee)?;
    if one.moving[place + 1..].iter().any(begins_with_licensee) {
        return None;
    }
    let mut moved = Expression { is_entry: false, ..one.clone() };
    moved.head.features.remove(0);
    moved.moving[place].features.remove(0);
    if moved.moving[place].features.is_empty() {
        let landed = moved.moving.remove(place);
        moved.head.string.splice(0..0, landed.string);
    }
    Some(moved)
}
