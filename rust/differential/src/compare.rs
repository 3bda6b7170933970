//! One input to both sides: the answers and every number of every lent buffer are the same.

use std::fmt;

use reference::file::read;
use reference::grammar::Grammar;
use reference::minimalist::{derivations, Derivations};
use reference::notation::places;
use reference::record::Record;
use reference::renaming::renaming;
use reference::survey::survey_is_right;
use reference::{Answer, Calls, Date, DateCalls, Heading, Reference, Refusal, TreeCalls};

use crate::damage::at;
use crate::lexicons::Given;
use crate::orders::order_of_double;
use crate::sentences::is_unclear;
use crate::show::{show_file, show_heading, show_lexicon};
use crate::tally::{Call, Tally};

/// Both sides, and what they met so far.
pub struct Pair<'a> {
    pub tested: &'a dyn Calls,
    /// Counts the derivations of a lexicon: the reference's, or one with a fault.
    pub derivations: Derivations,
    pub tally: Tally,
}

/// An input on which the tested side differs from the reference.
pub struct Difference {
    pub call: Call,
    pub text: String,
}

impl fmt::Display for Difference {
    fn fmt(&self, f: &mut fmt::Formatter) -> fmt::Result {
        write!(f, "{:?} differs from the reference\n{}", self.call, self.text)
    }
}

pub type Done = Result<(), Difference>;

/// Numbers on both sides of a lent buffer that no call may touch.
const FENCE: usize = 8;

/// A buffer of this length filled with a pattern, between two fences.
fn lent<T: TryFrom<usize>>(length: usize, salt: usize) -> Vec<T> {
    let pattern = |i: usize| T::try_from((i * 37 + salt * 11 + 5) % 251).ok().expect("below 251");
    (0..length + 2 * FENCE).map(pattern).collect()
}

/// The first place where the buffers differ.
fn first_difference<T: PartialEq + fmt::Debug>(tested: &[T], expected: &[T]) -> Option<String> {
    let i = tested.iter().zip(expected).position(|(a, b)| a != b)?;
    let place = i as isize - FENCE as isize;
    Some(format!("buffer at {place}: {:?}, not {:?}", tested[i], expected[i]))
}

/// What both sides answer, each lent a buffer of this length, and the first place where the buffers then differ.
fn both<S: ?Sized, T>(out: usize, salt: usize, sides: [&S; 2], call: impl Fn(&S, &mut [T]) -> Answer) -> ((Answer, Answer), Option<String>)
where
    T: TryFrom<usize> + Clone + PartialEq + fmt::Debug,
{
    let mut tested: Vec<T> = lent(out, salt);
    let mut expected = tested.clone();
    let to = FENCE + out;
    let answers = (call(sides[0], &mut tested[FENCE..to]), call(sides[1], &mut expected[FENCE..to]));
    (answers, first_difference(&tested, &expected))
}

/// How the made file differs from the grammar otherwise than in the numbers of categories and rules.
fn other_grammar(file: &[u8], expected: &Grammar) -> Option<String> {
    match read(file) {
        Ok(grammar) if renaming(&grammar, expected).is_some() => None,
        Ok(_) => Some(format!("another grammar\n{}expected {expected:?}", show_file(file))),
        Err(refusal) => Some(format!("the reader refuses the made file: {refusal:?}\n{}", show_file(file))),
    }
}

impl Pair<'_> {
    pub fn new(tested: &dyn Calls) -> Pair<'_> {
        Pair { tested, derivations, tally: Tally::new() }
    }

    /// Takes both answers and the difference of the buffers into the tally, or makes a report.
    fn settle(&mut self, call: Call, answers: (Answer, Answer), buffer: Option<String>, input: impl FnOnce() -> String) -> Done {
        let (tested, expected) = answers;
        if tested != expected || buffer.is_some() {
            let buffer = buffer.unwrap_or_default();
            let text = format!("answer   {tested:?}\nexpected {expected:?}\n{buffer}\n{}", input());
            return Err(Difference { call, text });
        }
        self.tally.add(call, expected);
        Ok(())
    }

    /// As `settle`, for a call that is given this sentence.
    fn settle_with(
        &mut self,
        call: Call,
        sentence: &[u32],
        answers: (Answer, Answer),
        buffer: Option<String>,
        input: impl FnOnce() -> String,
    ) -> Done {
        self.settle(call, answers, buffer, input)?;
        self.tally.add_sentence(call, is_unclear(sentence), answers.1);
        Ok(())
    }

    pub fn read_grammar(&mut self, file: &[u8]) -> Done {
        let answers = (self.tested.read_grammar(file), Reference.read_grammar(file));
        self.settle(Call::ReadGrammar, answers, None, || show_file(file))?;
        self.add_order(Call::ReadGrammar, answers.0, |r| &file[at(r)..]);
        Ok(())
    }

    pub fn write_grammar(&mut self, heading: &Heading, records: &[u8], out: usize) -> Done {
        let sides: [&dyn Calls; 2] = [self.tested, &Reference];
        let (answers, buffer) = both(out, records.len(), sides, |side, out| side.write_grammar(heading, records, out));
        let input = || format!("output of {out}\n{}", show_heading(heading, records));
        self.settle(Call::WriteGrammar, answers, buffer, input)?;
        self.add_order(Call::WriteGrammar, answers.0, |r| &records[24 * r..]);
        Ok(())
    }

    /// The numbers of categories and rules are free; all else is compared.
    pub fn make_grammar(&mut self, given: &Given, out: usize) -> Done {
        let Given { lexicon, words, start } = given;
        let mut tested: Vec<u8> = lent(out, lexicon.len());
        let mut expected = tested.clone();
        let to = FENCE + out;
        let answers = (
            self.tested.make_grammar(lexicon, *words, *start, &mut tested[FENCE..to]),
            Reference.make_grammar(lexicon, *words, *start, &mut expected[FENCE..to]),
        );
        let mut wrong = None;
        if let Answer::Accepted(length) = answers.1 {
            let written = FENCE..FENCE + length as usize;
            let grammar = read(&expected[written.clone()]).expect("the reader takes what the reference makes");
            wrong = other_grammar(&tested[written.clone()], &grammar);
            self.tally.add_made(&grammar);
            expected[written.clone()].copy_from_slice(&tested[written]);
        }
        let buffer = wrong.or(first_difference(&tested, &expected));
        self.settle(Call::MakeGrammar, answers, buffer, || format!("output of {out}\n{}", show_lexicon(given)))?;
        self.tally.add_lexicon(given, answers.1);
        Ok(())
    }

    /// Of refusal 10 the order of the daughters that makes the rule equal to an earlier one. Rule r's record stands at the front of the
    /// bytes that `from` gives.
    fn add_order<'b>(&mut self, call: Call, answer: Answer, from: impl Fn(usize) -> &'b [u8]) {
        if let Answer::Refused(Refusal { number: 10, place, .. }) = answer {
            let record = |r: usize| *from(r).first_chunk().expect("a record has 24 bytes");
            let records: Vec<Record> = (0..=place as usize).map(record).collect();
            if let Some(order) = order_of_double(&records) {
                self.tally.add_order(call, order);
            }
        }
    }

    /// The trace checker and the weighing. An accepted trace has the same sum as its tree.
    pub fn check_and_weigh_trace(&mut self, file: &[u8], sentence: &[u32], trace: &[u16]) -> Done {
        let input = || format!("sentence {}\ntrace {trace:?}\n{}", places(sentence), show_file(file));
        let checked = (self.tested.check_trace(file, sentence, trace), Reference.check_trace(file, sentence, trace));
        self.settle_with(Call::CheckTrace, sentence, checked, None, input)?;
        let weighed = (self.tested.weigh_trace(file, sentence, trace), Reference.weigh_trace(file, sentence, trace));
        self.settle_with(Call::WeighTrace, sentence, weighed, None, input)?;
        let Answer::Accepted(sum) = weighed.0 else { return Ok(()) };
        self.trace_to_tree(file, sentence, trace, 96)?;
        let mut tree = [0; 96];
        self.tested.trace_to_tree(file, sentence, trace, &mut tree);
        let along_tree = self.tested.weigh_tree(file, sentence, &tree[..trace.len()]);
        self.same_sum(Call::WeighTree, sum, along_tree, input)
    }

    /// The tree checker and the weighing. An accepted tree has the same sum as its trace.
    pub fn check_and_weigh_tree(&mut self, file: &[u8], sentence: &[u32], tree: &[u16]) -> Done {
        let input = || format!("sentence {}\ntree {tree:?}\n{}", places(sentence), show_file(file));
        let checked = (self.tested.check_tree(file, sentence, tree), Reference.check_tree(file, sentence, tree));
        self.settle_with(Call::CheckTree, sentence, checked, None, input)?;
        let weighed = (self.tested.weigh_tree(file, sentence, tree), Reference.weigh_tree(file, sentence, tree));
        self.settle_with(Call::WeighTree, sentence, weighed, None, input)?;
        let Answer::Accepted(sum) = weighed.0 else { return Ok(()) };
        self.tree_to_trace(file, sentence, tree, 96)?;
        let mut trace = [0; 96];
        self.tested.tree_to_trace(file, sentence, tree, &mut trace);
        let along_trace = self.tested.weigh_trace(file, sentence, &trace[..tree.len()]);
        self.same_sum(Call::WeighTrace, sum, along_trace, input)
    }

    /// The sum of a list, and what weighing the list that belongs to it answers.
    fn same_sum(&mut self, call: Call, sum: u32, other: Answer, input: impl FnOnce() -> String) -> Done {
        if other != Answer::Accepted(sum) {
            let text = format!("answer   {other:?}\nexpected {sum}, the sum of the list that belongs to it:\n{}", input());
            return Err(Difference { call, text });
        }
        self.tally.sums += 1;
        self.tally.highest_sum = self.tally.highest_sum.max(sum);
        Ok(())
    }

    pub fn trace_to_tree(&mut self, file: &[u8], sentence: &[u32], trace: &[u16], out: usize) -> Done {
        let sides: [&dyn Calls; 2] = [self.tested, &Reference];
        let (answers, buffer) = both(out, trace.len(), sides, |side, out| side.trace_to_tree(file, sentence, trace, out));
        let input = || format!("output of {out}\nsentence {}\ntrace {trace:?}\n{}", places(sentence), show_file(file));
        self.settle_with(Call::TraceToTree, sentence, answers, buffer, input)
    }

    pub fn tree_to_trace(&mut self, file: &[u8], sentence: &[u32], tree: &[u16], out: usize) -> Done {
        let sides: [&dyn Calls; 2] = [self.tested, &Reference];
        let (answers, buffer) = both(out, tree.len(), sides, |side, out| side.tree_to_trace(file, sentence, tree, out));
        let input = || format!("output of {out}\nsentence {}\ntree {tree:?}\n{}", places(sentence), show_file(file));
        self.settle_with(Call::TreeToTrace, sentence, answers, buffer, input)
    }

    pub fn count(&mut self, file: &[u8], sentence: &[u32], node_limit: u64, effort_limit: u64) -> Done {
        let answers =
            (self.tested.count(file, sentence, node_limit, effort_limit), Reference.count(file, sentence, node_limit, effort_limit));
        let input = || format!("sentence {}\nlimits {node_limit} {effort_limit}\n{}", places(sentence), show_file(file));
        self.settle_with(Call::Count, sentence, answers, None, input)
    }

    pub fn entry(&mut self, file: &[u8], sentence: &[u32], limits: (u64, u64), m: u64, out: usize) -> Done {
        let sides: [&dyn Calls; 2] = [self.tested, &Reference];
        let (answers, buffer) = both(out, m as usize % 1000, sides, |side, out| side.entry(file, sentence, limits.0, limits.1, m, out));
        let input = || format!("output of {out}\nsentence {}\nlimits {limits:?} entry {m}\n{}", places(sentence), show_file(file));
        self.settle_with(Call::Entry, sentence, answers, buffer, input)
    }

    /// The figures are free within document 01's line; all else is compared.
    pub fn survey(&mut self, file: &[u8], out: usize) -> Done {
        let mut tested: Vec<u16> = lent(out, file.len());
        let mut expected = tested.clone();
        let to = FENCE + out;
        let answers = (self.tested.survey(file, &mut tested[FENCE..to]), Reference.survey(file, &mut expected[FENCE..to]));
        let mut wrong = None;
        if let Answer::Accepted(categories) = answers.1 {
            let written = FENCE..FENCE + categories as usize;
            if !survey_is_right(file, &tested[written.clone()]) {
                wrong = Some(format!("figures {:?}, least {:?}", &tested[written.clone()], &expected[written.clone()]));
            }
            expected[written.clone()].copy_from_slice(&tested[written]);
        }
        let buffer = wrong.or(first_difference(&tested, &expected));
        self.settle(Call::Survey, answers, buffer, || format!("output of {out}\n{}", show_file(file)))
    }

    /// A date's number. An accepted one leads back to the date.
    pub fn day_number(&mut self, date: Date) -> Done {
        let answers = (self.tested.day_number(date), Reference.day_number(date));
        self.settle(Call::DayNumber, answers, None, || format!("{date:?}"))?;
        let Answer::Accepted(number) = answers.0 else { return Ok(()) };
        let back = self.tested.date_of(number as u64);
        if back != Answer::Dated(date) {
            return Err(Difference { call: Call::DateOf, text: format!("{date:?} is day {number} and comes back as {back:?}") });
        }
        self.tally.date_and_back(number as usize);
        Ok(())
    }

    /// A number's date. An accepted one leads back to the number.
    pub fn date_of(&mut self, number: u64) -> Done {
        let answers = (self.tested.date_of(number), Reference.date_of(number));
        self.settle(Call::DateOf, answers, None, || format!("day {number}"))?;
        let Answer::Dated(date) = answers.0 else { return Ok(()) };
        let back = self.tested.day_number(date);
        if back != Answer::Accepted(number as u32) {
            return Err(Difference { call: Call::DayNumber, text: format!("day {number} is {date:?} and comes back as {back:?}") });
        }
        self.tally.number_and_back(number as usize);
        Ok(())
    }

    pub fn opening_day(&mut self, date: Date, term: u64) -> Done {
        let answers = (self.tested.opening_day(date, term), Reference.opening_day(date, term));
        self.settle(Call::OpeningDay, answers, None, || format!("{date:?}\nterm {term}"))
    }

    pub fn is_open(&mut self, date: Date, term: u64, asked: u64) -> Done {
        let answers = (self.tested.is_open(date, term, asked), Reference.is_open(date, term, asked));
        self.settle(Call::IsOpen, answers, None, || format!("{date:?}\nterm {term}\nday {asked}"))
    }
}
