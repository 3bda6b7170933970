//! Whether two grammars are the same but for the numbers of their categories and rules.

use crate::grammar::{Body, Grammar, Rule};

/// For each category of the first grammar a category of the second, each once, so that the start is the start and the rules of the first,
/// with these categories, are those of the second, each as often. Nothing where no numbering makes the two the same.
pub fn renaming(one: &Grammar, other: &Grammar) -> Option<Vec<usize>> {
    if one.words != other.words || one.dimensions.len() != other.dimensions.len() || one.rules.len() != other.rules.len() {
        return None;
    }
    let grammars = [one, other];
    search(
        grammars,
        grammars.map(|grammar| grammar.dimensions.iter().enumerate().map(|(c, d)| 2 * d + (c == grammar.start) as usize).collect()),
    )
}

/// One colour for each category of each grammar. A renaming goes from each category to one of its colour.
type Colours = [Vec<usize>; 2];

/// A renaming for these colours: where they leave a choice, each is tried.
fn search(grammars: [&Grammar; 2], colours: Colours) -> Option<Vec<usize>> {
    let colours = refined(grammars, colours);
    let [ones, others] = &colours;
    if sorted(ones.clone()) != sorted(others.clone()) {
        return None;
    }
    let of_colour = |colours: &[usize], wanted: usize| -> Vec<usize> { (0..colours.len()).filter(|&c| colours[c] == wanted).collect() };
    let Some(category) = (0..ones.len()).find(|&c| of_colour(ones, ones[c]).len() > 1) else {
        let names: Vec<usize> = ones.iter().map(|&colour| of_colour(others, colour)[0]).collect();
        let renamed = grammars[0].rules.iter().map(|rule| renamed(rule, &names)).collect();
        return (sorted(renamed) == sorted(grammars[1].rules.clone())).then_some(names);
    };
    of_colour(others, ones[category]).into_iter().find_map(|choice| {
        // the numbers of the colours are below that of the categories
        let (mut colours, new) = (colours.clone(), ones.len());
        (colours[0][category], colours[1][choice]) = (new, new);
        search(grammars, colours)
    })
}

/// The colours made finer, until two categories of one colour have their places in the same rules, colour for colour.
fn refined(grammars: [&Grammar; 2], mut colours: Colours) -> Colours {
    loop {
        let before = distinct(colours.concat()).len();
        let looks = [0, 1].map(|side| looks(grammars[side], &colours[side]));
        let all = distinct(looks.concat());
        colours = looks.map(|looks| looks.iter().map(|look| all.binary_search(look).expect("it is among all")).collect());
        if all.len() == before {
            return colours;
        }
    }
}

/// A category's colour, and each place that it has in a rule, with the rule in colours.
type Look = (usize, Vec<(usize, Rule)>);

fn looks(grammar: &Grammar, colours: &[usize]) -> Vec<Look> {
    let mut looks: Vec<Look> = colours.iter().map(|&colour| (colour, vec![])).collect();
    for rule in &grammar.rules {
        let in_colours = renamed(rule, colours);
        let daughters = match &rule.body {
            Body::Lexical(_) => &[][..],
            Body::Nonlexical { daughters, .. } => daughters,
        };
        for (place, &category) in [rule.category].iter().chain(daughters).enumerate() {
            looks[category].1.push((place, in_colours.clone()));
        }
    }
    for (_, places) in &mut looks {
        places.sort();
    }
    looks
}

/// The rule with other names for its categories.
fn renamed(rule: &Rule, names: &[usize]) -> Rule {
    let mut renamed = Rule { category: names[rule.category], ..rule.clone() };
    if let Body::Nonlexical { daughters, .. } = &mut renamed.body {
        daughters.iter_mut().for_each(|daughter| *daughter = names[*daughter]);
    }
    renamed
}

fn sorted<T: Ord>(mut list: Vec<T>) -> Vec<T> {
    list.sort();
    list
}

fn distinct<T: Ord>(list: Vec<T>) -> Vec<T> {
    let mut list = sorted(list);
    list.dedup();
    list
}
