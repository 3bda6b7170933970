//! The survey: for each category the least height of a tree.

use crate::file::read;
use crate::grammar::{Body, Grammar};

/// The least height of a tree with this category as root, 0 where there is none.
pub fn least_heights(grammar: &Grammar) -> Vec<u16> {
    let categories = grammar.dimensions.len();
    let mut heights = vec![0; categories];
    for height in 1..=categories as u16 {
        let lower = heights.clone();
        for rule in &grammar.rules {
            let daughters = match &rule.body {
                Body::Lexical(_) => &[][..],
                Body::Nonlexical { daughters, .. } => daughters,
            };
            if heights[rule.category] == 0 && daughters.iter().all(|&d| lower[d] != 0) {
                heights[rule.category] = height;
            }
        }
    }
    heights
}

/// Whether these are figures that the survey of the file may write: 0 where the category has no tree, otherwise from 1 to C and such
/// that a tree of at most that height exists.
pub fn survey_is_right(file: &[u8], figures: &[u16]) -> bool {
    let Ok(grammar) = read(file) else { return false };
    let heights = least_heights(&grammar);
    let categories = heights.len() as u16;
    figures.len() == heights.len()
        && heights.iter().zip(figures).all(|(&least, &figure)| match least {
            0 => figure == 0,
            _ => (least..=categories).contains(&figure),
        })
}
