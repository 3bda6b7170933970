//! The count as a fast search in plain Rust: depth first over live prefixes. The queue is a row of slots in sentence order; a slot is one
//! component of one prediction. A nonlexical step puts in place of each slot of the front prediction the variables of that component, a
//! lexical step drops the head of the row.

use reference::grammar::{Body, Grammar, EMPTY_WORD};

/// A prediction's number in order of making, its category and one of its components, in one number.
type Slot = u16;

fn slot(made: usize, category: usize, component: usize) -> Slot {
    ((made * 64 + category) * 4 + component) as Slot
}

fn category(slot: Slot) -> usize {
    (slot / 4 % 64) as usize
}

/// The same number for all slots of one prediction.
fn prediction(slot: Slot) -> Slot {
    slot / 4
}

/// Whether the word lies between the ends of the place, the lowest in the lower 16 bits and the highest in the upper 16.
fn takes(place: u32, word: u16) -> bool {
    place as u16 <= word && word <= (place >> 16) as u16
}

/// What `made` adds to a slot.
const MADE: Slot = 256;

/// The place for a row: 96 predictions have 384 slots at most. A power of two, so that an index below it needs no test.
const ROW: usize = 512;

enum Step {
    Scan(u16),
    /// The number of daughters, and for each component its variables as slots of predictions made from number 0 on.
    Expand(u16, [Vec<Slot>; 4]),
}

/// The steps of each category, made once.
pub struct Table(Vec<Vec<Step>>);

impl Table {
    pub fn new(grammar: &Grammar) -> Table {
        let mut table: Vec<Vec<Step>> = grammar.dimensions.iter().map(|_| vec![]).collect();
        for rule in &grammar.rules {
            let step = match &rule.body {
                Body::Lexical(word) => Step::Scan(word.unwrap_or(EMPTY_WORD)),
                Body::Nonlexical { daughters, components } => {
                    let mut blocks: [Vec<Slot>; 4] = Default::default();
                    for (block, component) in blocks.iter_mut().zip(components) {
                        *block = component.iter().map(|v| slot(v.daughter, daughters[v.daughter], v.component)).collect();
                    }
                    Step::Expand(daughters.len() as u16, blocks)
                }
            };
            table[rule.category].push(step);
        }
        Table(table)
    }
}

pub struct Search<'a> {
    table: &'a Table,
    sentence: &'a [u32],
    effort_limit: u64,
    effort: u64,
    count: u64,
}

/// Count and effort, or nothing where the effort is above the limit.
pub fn count(table: &Table, start: usize, sentence: &[u32], node_limit: usize, effort_limit: u64) -> Option<(u64, u64)> {
    let mut search = Search { table, sentence, effort_limit, effort: 0, count: 0 };
    // rows of all depths, one behind the other
    let mut rows = vec![0; ROW * (node_limit + 2)];
    rows[0] = slot(0, start, 0);
    // nodes that may still be made beside those predicted
    let spare = node_limit as u16 - 1;
    search.visit(&mut rows, 1, 0, spare, 1).then_some((search.count, search.effort))
}

impl Search<'_> {
    /// Visits the prefix whose row stands at the front of `rows`, and all that begin with it; false where the limit is passed.
    fn visit(&mut self, rows: &mut [Slot], length: usize, read: usize, spare: u16, made: u16) -> bool {
        self.effort += 1;
        if self.effort > self.effort_limit {
            return false;
        }
        if length == 0 {
            self.count += (read == self.sentence.len()) as u64;
            return true;
        }
        let table = self.table;
        let head = rows[0];
        for step in &table.0[category(head)] {
            let within = match step {
                Step::Scan(word) => {
                    let taken = (*word != EMPTY_WORD) as usize;
                    if taken == 1 && !self.sentence.get(read).is_some_and(|&place| takes(place, *word)) {
                        continue;
                    }
                    self.visit(&mut rows[1..], length - 1, read + taken, spare, made)
                }
                Step::Expand(daughters, blocks) => {
                    if *daughters > spare {
                        continue;
                    }
                    let (row, next) = rows.split_at_mut(length);
                    let longer = expand(row, next, prediction(head), blocks, made);
                    self.visit(next, longer, read, spare - daughters, made + daughters)
                }
            };
            if !within {
                return false;
            }
        }
        true
    }
}

/// The row with the front prediction's slots replaced, and its length.
fn expand(row: &[Slot], next: &mut [Slot], front: Slot, blocks: &[Vec<Slot>; 4], made: u16) -> usize {
    let next: &mut [Slot; ROW] = (&mut next[..ROW]).try_into().expect("every row has its place");
    let mut n = 0;
    for &slot in row {
        if prediction(slot) == front {
            for &variable in &blocks[(slot % 4) as usize] {
                next[n % ROW] = variable + made * MADE;
                n += 1;
            }
        } else {
            next[n % ROW] = slot;
            n += 1;
        }
    }
    n
}

#[cfg(test)]
mod tests {
    use super::*;
    use reference::file::read;
    use reference::listing::listing;
    use reference::notation::grammar_file;
    use reference::samples::{AGREEMENT, CHAIN, COPY, SHUFFLED};
    use reference::{word, words};

    /// The first places of the sentence, with some node limits.
    fn as_in_the_reference(text: &str, sentence: &[u32]) {
        let grammar = read(&grammar_file(text)).unwrap();
        let table = Table::new(&grammar);
        for places in 0..=sentence.len().min(7) {
            for node_limit in [1, 4, 5, 7, 9, 12, 16] {
                let limit = 3_000;
                let expected = listing(&grammar, &sentence[..places], node_limit, limit).ok();
                let expected = expected.map(|listing| (listing.traces.len() as u64, listing.effort));
                assert_eq!(
                    count(&table, grammar.start, &sentence[..places], node_limit as usize, limit),
                    expected,
                    "{text} {places} {node_limit}"
                );
            }
        }
    }

    #[test]
    fn single_words() {
        for (_, text, sentence, _) in crate::inputs::inputs() {
            as_in_the_reference(text, &sentence);
        }
    }

    #[test]
    fn unclear_places() {
        for text in [COPY, CHAIN, SHUFFLED, AGREEMENT] {
            as_in_the_reference(text, &[words(0, 1); 6]);
            as_in_the_reference(text, &[word(0), words(0, 1), words(0, 1), word(1)]);
        }
        as_in_the_reference(AGREEMENT, &[word(0), words(1, 2), words(3, 4)]);
        as_in_the_reference(AGREEMENT, &[words(0, 4), words(2, 3), words(2, 3)]);
    }
}
