//! The five merge and move schemes (source document 003, section 3; document 02, paper 6): the categories derivable from a lexicon's
//! entries, and the rules of the schemes among them. Categories have names here and no numbers.

use crate::grammar::Variable;
use crate::lexicon::{Feature, Lexicon};

/// A row of features.
pub type Chain = Vec<Feature>;

/// "a category is a tuple" <x, d0, d1, .., dj>: whether x is 1, the head's chain, and then the moving chains. Moving chains in another
/// order are another category.
#[derive(Clone, Debug, PartialEq, Eq)]
pub struct Tuple {
    pub lexical: bool,
    pub chains: Vec<Chain>,
}

/// A rule of a scheme: a category, its daughters, and a sequence of variables for each of its components.
#[derive(Clone, Debug, PartialEq, Eq)]
pub struct Instance {
    pub category: Tuple,
    pub daughters: Vec<Tuple>,
    pub components: Vec<Vec<Variable>>,
}

/// The chains and the components that a scheme makes.
type Scheme = (Vec<Chain>, Vec<Vec<Variable>>);

impl Tuple {
    /// An entry's category, <1, d0>.
    pub fn of_entry(features: &[Feature]) -> Tuple {
        Tuple { lexical: true, chains: vec![features.to_vec()] }
    }

    fn head(&self) -> &[Feature] {
        &self.chains[0]
    }

    fn moving(&self) -> &[Chain] {
        &self.chains[1..]
    }
}

/// Component i of the first daughter.
fn s(i: usize) -> Variable {
    Variable { daughter: 0, component: i }
}

/// Component i of the second daughter.
fn t(i: usize) -> Variable {
    Variable { daughter: 1, component: i }
}

/// A component for each of these moving chains.
fn each(variable: impl Fn(usize) -> Variable, moving: &[Chain]) -> Vec<Vec<Variable>> {
    (1..=moving.len()).map(|i| vec![variable(i)]).collect()
}

/// Alpha and beta of two categories <x, =f alpha, ..> and <y, f beta, ..>.
fn selection<'a>(one: &'a Tuple, other: &'a Tuple) -> Option<(&'a [Feature], &'a [Feature])> {
    match (one.head().split_first()?, other.head().split_first()?) {
        ((Feature::Selector(wanted), alpha), (Feature::Category(given), beta)) if wanted == given => Some((alpha, beta)),
        _ => None,
    }
}

/// <0, alpha, d1, .., dj>(s0 t0, t1, .., tj) :- <1, =f alpha>(s0), <x, f, d1, .., dj>(t0, .., tj)
fn first(one: &Tuple, other: &Tuple) -> Option<Scheme> {
    let (alpha, beta) = selection(one, other)?;
    if !one.lexical || !beta.is_empty() {
        return None;
    }
    let chains = [&[alpha.to_vec()], other.moving()].concat();
    Some((chains, [vec![vec![s(0), t(0)]], each(t, other.moving())].concat()))
}

/// <0, alpha, d1, .., di, c1, .., cj>(t0 s0, s1, .., si, t1, .., tj) :-
/// <0, =f alpha, d1, .., di>(s0, .., si), <x, f, c1, .., cj>(t0, .., tj)
fn second(one: &Tuple, other: &Tuple) -> Option<Scheme> {
    let (alpha, beta) = selection(one, other)?;
    if one.lexical || !beta.is_empty() {
        return None;
    }
    let chains = [&[alpha.to_vec()], one.moving(), other.moving()].concat();
    Some((chains, [vec![vec![t(0), s(0)]], each(s, one.moving()), each(t, other.moving())].concat()))
}

/// <0, alpha, d1, .., di, beta, c1, .., cj>(s0, .., si, t0, .., tj) :-
/// <x, =f alpha, d1, .., di>(s0, .., si), <y, f beta, c1, .., cj>(t0, .., tj), where beta is not empty.
fn third(one: &Tuple, other: &Tuple) -> Option<Scheme> {
    let (alpha, beta) = selection(one, other)?;
    if beta.is_empty() {
        return None;
    }
    let chains = [&[alpha.to_vec()], one.moving(), &[beta.to_vec()], other.moving()].concat();
    let components = [vec![vec![s(0)]], each(s, one.moving()), vec![vec![t(0)]], each(t, other.moving())].concat();
    Some((chains, components))
}

/// Alpha, i and beta of a category <0, +f alpha, d1, .., dj> whose chain di is -f beta and the only one that begins with -f.
fn movement(one: &Tuple) -> Option<(&[Feature], usize, &[Feature])> {
    let (Feature::Licensor(licensor), alpha) = one.head().split_first()? else { return None };
    let begins_with_licensee = |&i: &usize| one.chains[i].first() == Some(&Feature::Licensee(*licensor));
    let found: Vec<usize> = (1..one.chains.len()).filter(begins_with_licensee).collect();
    match found[..] {
        [i] if !one.lexical => Some((alpha, i, &one.chains[i][1..])),
        _ => None,
    }
}

/// <0, alpha, d1, .., dj without di>(si s0, s1, .., sj without si) :- <0, +f alpha, d1, .., dj>(s0, .., sj), where di is -f.
fn fourth(one: &Tuple) -> Option<Scheme> {
    let (alpha, i, beta) = movement(one)?;
    if !beta.is_empty() {
        return None;
    }
    let (mut chains, mut components) = (one.chains.clone(), [vec![vec![s(i), s(0)]], each(s, one.moving())].concat());
    chains[0] = alpha.to_vec();
    chains.remove(i);
    components.remove(i);
    Some((chains, components))
}

/// <0, alpha, d1, .., beta, .., dj>(s0, s1, .., sj) :- <0, +f alpha, d1, .., dj>(s0, .., sj), where di is -f beta: "In the fifth scheme,
/// misprinted there, every string keeps its place."
fn fifth(one: &Tuple) -> Option<Scheme> {
    let (alpha, i, beta) = movement(one)?;
    if beta.is_empty() {
        return None;
    }
    let mut chains = one.chains.clone();
    chains[0] = alpha.to_vec();
    chains[i] = beta.to_vec();
    Some((chains, [vec![vec![s(0)]], each(s, one.moving())].concat()))
}

/// "A category is left out if a chain of it has no features, if a moving chain begins with anything but a licensee, or if two moving chains
/// begin with the same licensee".
fn left_out(chains: &[Chain]) -> bool {
    let moving = &chains[1..];
    chains.iter().any(|chain| chain.is_empty())
        || moving.iter().any(|chain| !matches!(chain[0], Feature::Licensee(_)))
        || (0..moving.len()).any(|i| moving[..i].iter().any(|earlier| earlier[0] == moving[i][0]))
}

/// All rules of the schemes whose daughters are among these categories, but for those of categories that are left out. "the left side of
/// each rule is a function of the right", so that none is there twice.
pub fn instances(tuples: &[Tuple]) -> Vec<Instance> {
    let mut instances = Vec::new();
    let mut keep = |made: Option<Scheme>, daughters: &[&Tuple]| match made {
        Some((chains, components)) if !left_out(&chains) => {
            let daughters = daughters.iter().map(|&daughter| daughter.clone()).collect();
            instances.push(Instance { category: Tuple { lexical: false, chains }, daughters, components });
        }
        _ => {}
    };
    for one in tuples {
        for other in tuples {
            for scheme in [first, second, third] {
                keep(scheme(one, other), &[one, other]);
            }
        }
        for scheme in [fourth, fifth] {
            keep(scheme(one), &[one]);
        }
    }
    instances
}

/// The categories derivable from the entries, each once; nothing where they are more than `most`.
pub fn derivable(lexicon: &Lexicon, most: usize) -> Option<Vec<Tuple>> {
    let mut known = Vec::new();
    for entry in &lexicon.entries {
        add(&mut known, Tuple::of_entry(&entry.features));
    }
    loop {
        let before = known.len();
        for instance in instances(&known) {
            if known.len() > most {
                return None;
            }
            add(&mut known, instance.category);
        }
        if known.len() > most {
            return None;
        }
        if known.len() == before {
            return Some(known);
        }
    }
}

fn add(known: &mut Vec<Tuple>, tuple: Tuple) {
    if !known.contains(&tuple) {
        known.push(tuple);
    }
}
