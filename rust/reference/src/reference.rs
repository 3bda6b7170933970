//! The public calls: the grammar first, then the desk's tests, then the analysis. Those on dates have the desk's tests alone.

use crate::calls::{Answer, Calls, Date, DateCalls, Heading, Refusal, TreeCalls};
use crate::dates::{date_of, day_number, is_open, opening_day};
use crate::file::read;
use crate::listing::{entry, listing};
use crate::made::make;
use crate::sentence::MOST;
use crate::survey::least_heights;
use crate::trace::{check_trace, trace_to_tree};
use crate::tree::{check_tree, tree_to_trace};
use crate::weight::{weigh_trace, weigh_tree};
use crate::writer::write;

pub struct Reference;

fn answer(outcome: Result<usize, Refusal>) -> Answer {
    match outcome {
        Ok(value) => Answer::Accepted(value as u32),
        Err(refusal) => Answer::Refused(refusal),
    }
}

/// 23: output of fewer than 96 numbers.
fn test_output(out: &[u16]) -> Result<(), Refusal> {
    if out.len() < MOST {
        return Err(Refusal::desk(23));
    }
    Ok(())
}

/// Writes the list to the front of the output, which keeps its other numbers, and gives its length.
fn put(list: &[u16], out: &mut [u16]) -> usize {
    out[..list.len()].copy_from_slice(list);
    list.len()
}

/// 23: an output shorter than the file. Otherwise writes the file to the front of the output, which keeps its other bytes, and gives its
/// length.
fn put_file(file: &[u8], out: &mut [u8]) -> Result<usize, Refusal> {
    if out.len() < file.len() {
        return Err(Refusal::desk(23));
    }
    out[..file.len()].copy_from_slice(file);
    Ok(file.len())
}

impl Reference {
    fn written_tree(&self, file: &[u8], sentence: &[u32], trace: &[u16], out: &mut [u16]) -> Result<usize, Refusal> {
        let grammar = read(file)?;
        test_output(out)?;
        let tree = trace_to_tree(&grammar, sentence, trace)?;
        Ok(put(&tree, out))
    }

    fn written_trace(&self, file: &[u8], sentence: &[u32], tree: &[u16], out: &mut [u16]) -> Result<usize, Refusal> {
        let grammar = read(file)?;
        test_output(out)?;
        let trace = tree_to_trace(&grammar, sentence, tree)?;
        Ok(put(&trace, out))
    }

    fn written_entry(&self, file: &[u8], sentence: &[u32], limits: (u64, u64), m: u64, out: &mut [u16]) -> Result<usize, Refusal> {
        let grammar = read(file)?;
        test_output(out)?;
        let trace = entry(&grammar, sentence, limits.0, limits.1, m)?;
        Ok(put(&trace, out))
    }

    fn written_survey(&self, file: &[u8], out: &mut [u16]) -> Result<usize, Refusal> {
        let grammar = read(file)?;
        test_output(out)?;
        Ok(put(&least_heights(&grammar), out))
    }

    fn written_file(&self, heading: &Heading, records: &[u8], out: &mut [u8]) -> Result<usize, Refusal> {
        let file = write(heading, records)?;
        put_file(&file, out)
    }

    fn made_file(&self, lexicon: &[u8], words: u32, start: u32, out: &mut [u8]) -> Result<usize, Refusal> {
        let file = make(lexicon, words, start)?;
        put_file(&file, out)
    }
}

impl Calls for Reference {
    fn read_grammar(&self, file: &[u8]) -> Answer {
        answer(read(file).map(|grammar| grammar.rules.len()))
    }

    fn write_grammar(&self, heading: &Heading, records: &[u8], out: &mut [u8]) -> Answer {
        answer(self.written_file(heading, records, out))
    }

    fn make_grammar(&self, lexicon: &[u8], words: u32, start: u32, out: &mut [u8]) -> Answer {
        answer(self.made_file(lexicon, words, start, out))
    }

    fn check_trace(&self, file: &[u8], sentence: &[u32], trace: &[u16]) -> Answer {
        answer(read(file).and_then(|grammar| check_trace(&grammar, sentence, trace)).map(|_| trace.len()))
    }

    fn weigh_trace(&self, file: &[u8], sentence: &[u32], trace: &[u16]) -> Answer {
        answer(read(file).and_then(|grammar| weigh_trace(&grammar, sentence, trace)))
    }

    fn count(&self, file: &[u8], sentence: &[u32], node_limit: u64, effort_limit: u64) -> Answer {
        match read(file).and_then(|grammar| listing(&grammar, sentence, node_limit, effort_limit)) {
            Ok(listing) => Answer::Counted { count: listing.traces.len() as u32, effort: listing.effort as u32 },
            Err(refusal) => Answer::Refused(refusal),
        }
    }

    fn entry(&self, file: &[u8], sentence: &[u32], node_limit: u64, effort_limit: u64, m: u64, out: &mut [u16]) -> Answer {
        answer(self.written_entry(file, sentence, (node_limit, effort_limit), m, out))
    }

    fn survey(&self, file: &[u8], out: &mut [u16]) -> Answer {
        answer(self.written_survey(file, out))
    }
}

impl TreeCalls for Reference {
    fn check_tree(&self, file: &[u8], sentence: &[u32], tree: &[u16]) -> Answer {
        answer(read(file).and_then(|grammar| check_tree(&grammar, sentence, tree)).map(|_| tree.len()))
    }

    fn weigh_tree(&self, file: &[u8], sentence: &[u32], tree: &[u16]) -> Answer {
        answer(read(file).and_then(|grammar| weigh_tree(&grammar, sentence, tree)))
    }

    fn trace_to_tree(&self, file: &[u8], sentence: &[u32], trace: &[u16], out: &mut [u16]) -> Answer {
        answer(self.written_tree(file, sentence, trace, out))
    }

    fn tree_to_trace(&self, file: &[u8], sentence: &[u32], tree: &[u16], out: &mut [u16]) -> Answer {
        answer(self.written_trace(file, sentence, tree, out))
    }
}

impl DateCalls for Reference {
    fn day_number(&self, date: Date) -> Answer {
        answer(day_number(date))
    }

    fn date_of(&self, number: u64) -> Answer {
        match date_of(number) {
            Ok(date) => Answer::Dated(date),
            Err(refusal) => Answer::Refused(refusal),
        }
    }

    fn opening_day(&self, date: Date, term: u64) -> Answer {
        answer(opening_day(date, term))
    }

    /// 1 for open, 0 for not.
    fn is_open(&self, date: Date, term: u64, asked: u64) -> Answer {
        answer(is_open(date, term, asked).map(usize::from))
    }
}
