//! The grammar of a lexicon (document 02, paper 6): its rules between named categories, refusal 31, and the file, in one numbering.

use crate::calls::{Heading, Refusal};
use crate::grammar::{Variable, EMPTY_WORD};
use crate::lexicon::{read_lexicon, Lexicon};
use crate::record::{Record, RECORD};
use crate::schemes::{derivable, instances, Instance, Tuple};
use crate::writer::file_of;

const MOST_CATEGORIES: usize = 64;
const MOST_RULES: usize = 256;

/// A category of the made grammar.
#[derive(Clone, Debug, PartialEq, Eq)]
pub enum Name {
    NewStart,
    Of(Tuple),
}

/// A rule between named categories, with weight 0.
#[derive(Clone, Debug, PartialEq, Eq)]
pub enum NamedRule {
    /// An entry's rule; nothing for the empty word.
    Lexical(Tuple, Option<u16>),
    Instance(Instance),
    /// The new start's rule from a form of the wanted category.
    Start(Tuple),
}

#[derive(Debug)]
pub struct NamedGrammar {
    /// Each category once, and each rule once.
    pub categories: Vec<Name>,
    pub rules: Vec<NamedRule>,
}

/// Why there is no grammar: 31.
#[derive(Clone, Copy, Debug, PartialEq, Eq)]
pub enum Excess {
    Categories,
    Rules,
    /// Neither the lexical nor the derived form of the wanted category is derivable.
    NoStart,
}

/// The grammar of the lexicon, "the new start's included".
pub fn named_grammar(lexicon: &Lexicon) -> Result<NamedGrammar, Excess> {
    let Some(tuples) = derivable(lexicon, MOST_CATEGORIES - 1) else {
        return Err(Excess::Categories);
    };
    let entries = lexicon.entries.iter().map(|entry| NamedRule::Lexical(Tuple::of_entry(&entry.features), entry.word));
    let start_forms: Vec<Tuple> = start_forms(lexicon).into_iter().filter(|form| tuples.contains(form)).collect();
    if start_forms.is_empty() {
        return Err(Excess::NoStart);
    }
    let among_them = |instance: &Instance| tuples.contains(&instance.category);
    let schemes = instances(&tuples).into_iter().filter(among_them).map(NamedRule::Instance);
    let rules: Vec<NamedRule> = entries.chain(schemes).chain(start_forms.into_iter().map(NamedRule::Start)).collect();
    if rules.len() > MOST_RULES {
        return Err(Excess::Rules);
    }
    let categories = [Name::NewStart].into_iter().chain(tuples.into_iter().map(Name::Of)).collect();
    Ok(NamedGrammar { categories, rules })
}

/// "the lexical and the derived form of the wanted one", without moving chains.
pub fn start_forms(lexicon: &Lexicon) -> [Tuple; 2] {
    [true, false].map(|lexical| Tuple { lexical, chains: vec![vec![lexicon.start]] })
}

/// 30, 10, 31, or the file. The categories and the rules are numbered as they were found.
pub fn make(lexicon: &[u8], words: u32, start: u32) -> Result<Vec<u8>, Refusal> {
    let lexicon = read_lexicon(lexicon, words, start)?;
    let Ok(grammar) = named_grammar(&lexicon) else {
        return Err(Refusal::grammar(31, 0));
    };
    let names: Vec<&Name> = grammar.categories.iter().collect();
    let number = |name: Name| names.iter().position(|&known| *known == name).expect("a rule's categories are the grammar's") as u8;
    let records: Vec<u8> = grammar.rules.iter().flat_map(|rule| record_of(rule, &number)).collect();
    let mut dimensions: Vec<u8> = names.iter().map(|name| dimension(name)).collect();
    dimensions.resize(MOST_CATEGORIES, 0);
    let heading = Heading {
        categories: names.len() as u8,
        start: number(Name::NewStart),
        words: lexicon.words,
        rules: grammar.rules.len() as u16,
        dimensions,
    };
    Ok(file_of(&heading, &records))
}

/// "the category has dimension j + 1".
fn dimension(name: &Name) -> u8 {
    match name {
        Name::NewStart => 1,
        Name::Of(tuple) => tuple.chains.len() as u8,
    }
}

fn record_of(rule: &NamedRule, number: impl Fn(Name) -> u8) -> Record {
    let mut record = [0; RECORD];
    match rule {
        NamedRule::Lexical(category, word) => {
            record[0] = number(Name::Of(category.clone()));
            record[5..7].copy_from_slice(&word.unwrap_or(EMPTY_WORD).to_le_bytes());
        }
        NamedRule::Instance(Instance { category, daughters, components }) => {
            record[0] = number(Name::Of(category.clone()));
            let daughters: Vec<u8> = daughters.iter().map(|daughter| number(Name::Of(daughter.clone()))).collect();
            put_right_side(&mut record, &daughters, components);
        }
        NamedRule::Start(form) => {
            record[0] = number(Name::NewStart);
            let whole = Variable { daughter: 0, component: 0 };
            put_right_side(&mut record, &[number(Name::Of(form.clone()))], &[vec![whole]]);
        }
    }
    record
}

fn put_right_side(record: &mut Record, daughters: &[u8], components: &[Vec<Variable>]) {
    record[1] = daughters.len() as u8;
    record[2..2 + daughters.len()].copy_from_slice(daughters);
    for (k, component) in components.iter().enumerate() {
        record[7 + k] = component.len() as u8;
    }
    for (k, variable) in components.iter().flatten().enumerate() {
        record[11 + k] = (4 * variable.daughter + variable.component) as u8;
    }
}
