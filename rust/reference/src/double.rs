//! Refusal 10, as papers 1 and 4 of document 02 have it: a rule that equals an earlier one, weight aside, in some order of its daughters.

use crate::grammar::{Body, Rule, Variable};

/// 10: "a rule that equals an earlier one once its daughters are reordered and its variables renumbered to match, weight aside". The order
/// that the daughters have is one of their orders, so a rule that equals an earlier one as it stands is a double too.
pub fn is_double(earlier: &[Rule], rule: &Rule) -> bool {
    let forms = in_every_order(rule);
    earlier.iter().any(|earlier| forms.iter().any(|form| equal_but_for_weight(earlier, form)))
}

/// The rule in every order of its daughters.
fn in_every_order(rule: &Rule) -> Vec<Rule> {
    match &rule.body {
        Body::Lexical(_) => vec![rule.clone()],
        Body::Nonlexical { daughters, components } => {
            let bodies = orders(daughters.len()).iter().map(|order| reordered(daughters, components, order));
            bodies.map(|body| Rule { category: rule.category, body, weight: rule.weight }).collect()
        }
    }
}

/// Every order of 1 to 3 daughters: for each new position the old position of the daughter that stands there.
fn orders(daughters: usize) -> &'static [&'static [usize]] {
    match daughters {
        1 => &[&[0]],
        2 => &[&[0, 1], &[1, 0]],
        _ => &[&[0, 1, 2], &[0, 2, 1], &[1, 0, 2], &[1, 2, 0], &[2, 0, 1], &[2, 1, 0]],
    }
}

/// The daughters in this order, and the variables renumbered to match: each names the same component of the same daughter, by the
/// daughter's new position. The rule's own components keep their order.
fn reordered(daughters: &[usize], components: &[Vec<Variable>], order: &[usize]) -> Body {
    let renumbered = |variable: &Variable| Variable { daughter: new_position(order, variable.daughter), component: variable.component };
    Body::Nonlexical {
        daughters: order.iter().map(|&old| daughters[old]).collect(),
        components: components.iter().map(|component| component.iter().map(renumbered).collect()).collect(),
    }
}

/// Where the order puts the daughter that stood at the old position.
fn new_position(order: &[usize], old: usize) -> usize {
    order.iter().position(|&daughter| daughter == old).expect("an order has every daughter")
}

fn equal_but_for_weight(earlier: &Rule, rule: &Rule) -> bool {
    earlier.category == rule.category && earlier.body == rule.body
}
