//! One rule's record of 24 bytes: refusals 6 to 10, and the rule that it holds.

use crate::calls::Refusal;
use crate::double::is_double;
use crate::grammar::{Body, Rule, Variable, EMPTY_WORD};

pub const RECORD: usize = 24;

pub type Record = [u8; RECORD];

/// Byte 23 is the rule's weight.
pub const WEIGHT: usize = 23;

/// The records that stand in these bytes, one after the other.
pub fn records_in(bytes: &[u8]) -> impl Iterator<Item = Record> + '_ {
    bytes.chunks_exact(RECORD).map(|record| record.try_into().expect("a record has 24 bytes"))
}

/// What the heading says, as far as records need it.
pub struct Setting {
    pub dimensions: Vec<usize>,
    pub words: usize,
}

/// Tests 6 to 10 of each record in turn, and gives the rules.
pub fn read_records(setting: &Setting, records: &[Record]) -> Result<Vec<Rule>, Refusal> {
    let mut rules = Vec::new();
    for (r, record) in records.iter().enumerate() {
        if wrong_category(setting, record) {
            return Err(Refusal::grammar(6, r));
        }
        if wrong_lexical(setting, record) {
            return Err(Refusal::grammar(7, r));
        }
        if wrong_variables(setting, record) {
            return Err(Refusal::grammar(8, r));
        }
        if unused_not_zero(setting, record) {
            return Err(Refusal::grammar(9, r));
        }
        let rule = rule_of(setting, record);
        if is_double(&rules, &rule) {
            return Err(Refusal::grammar(10, r));
        }
        rules.push(rule);
    }
    Ok(rules)
}

/// 6: category, daughter count or daughter.
fn wrong_category(setting: &Setting, record: &Record) -> bool {
    let categories = setting.dimensions.len();
    record[0] as usize >= categories || record[1] > 3 || daughters_of(record).any(|d| d >= categories)
}

/// 7: lexical with dimension other than 1, or no such word.
fn wrong_lexical(setting: &Setting, record: &Record) -> bool {
    let word = word_of(record);
    let no_such_word = word != EMPTY_WORD && word as usize >= setting.words;
    is_lexical(record) && (setting.dimensions[record[0] as usize] != 1 || no_such_word)
}

/// 8: variables not each once, or lengths not adding up.
fn wrong_variables(setting: &Setting, record: &Record) -> bool {
    if is_lexical(record) {
        return false;
    }
    let wanted = variables_of_daughters(setting, record);
    let lengths: usize = lengths_of(setting, record).iter().sum();
    let given = &record[11..11 + wanted.len()];
    lengths != wanted.len() || wanted.iter().any(|v| given.iter().filter(|&g| g == v).count() != 1)
}

/// 9: unused byte not 0. Fields that a rule of its kind lacks are unused. "Refusal 9 no longer covers byte 23."
fn unused_not_zero(setting: &Setting, record: &Record) -> bool {
    (0..WEIGHT).any(|i| record[i] != 0 && !used(setting, record, i))
}

/// Whether the rule has a field at byte i, from 0 to 22.
fn used(setting: &Setting, record: &Record, i: usize) -> bool {
    let daughters = record[1] as usize;
    match i {
        0 | 1 => true,
        2..=4 => i - 2 < daughters,
        5 | 6 => is_lexical(record),
        7..=10 => !is_lexical(record) && i - 7 < setting.dimensions[record[0] as usize],
        _ => !is_lexical(record) && i - 11 < variables_of_daughters(setting, record).len(),
    }
}

fn is_lexical(record: &Record) -> bool {
    record[1] == 0
}

fn word_of(record: &Record) -> u16 {
    u16::from_le_bytes([record[5], record[6]])
}

fn daughters_of(record: &Record) -> impl Iterator<Item = usize> + '_ {
    record[2..2 + record[1] as usize].iter().map(|&d| d as usize)
}

fn lengths_of(setting: &Setting, record: &Record) -> Vec<usize> {
    let dimension = setting.dimensions[record[0] as usize];
    record[7..7 + dimension].iter().map(|&length| length as usize).collect()
}

/// The bytes of the variables of every daughter: 4 times daughter position plus component.
fn variables_of_daughters(setting: &Setting, record: &Record) -> Vec<u8> {
    let mut variables = Vec::new();
    for (position, category) in daughters_of(record).enumerate() {
        for component in 0..setting.dimensions[category] {
            variables.push((4 * position + component) as u8);
        }
    }
    variables
}

fn rule_of(setting: &Setting, record: &Record) -> Rule {
    let body = if is_lexical(record) { lexical_body(record) } else { nonlexical_body(setting, record) };
    Rule { category: record[0] as usize, body, weight: record[WEIGHT] }
}

fn lexical_body(record: &Record) -> Body {
    let word = word_of(record);
    Body::Lexical(if word == EMPTY_WORD { None } else { Some(word) })
}

fn nonlexical_body(setting: &Setting, record: &Record) -> Body {
    let mut at = 11;
    let mut components = Vec::new();
    for length in lengths_of(setting, record) {
        let variables = record[at..at + length].iter().map(|&v| v as usize);
        components.push(variables.map(|v| Variable { daughter: v / 4, component: v % 4 }).collect());
        at += length;
    }
    Body::Nonlexical { daughters: daughters_of(record).collect(), components }
}
