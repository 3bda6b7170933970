//! How often each call met each refusal, and which ones it has to meet.

use std::fmt;

use reference::grammar::{Body, Grammar};
use reference::lexicon::read_lexicon;
use reference::made::{named_grammar, Excess};
use reference::Answer;

use crate::lexicons::Given;
use crate::orders::ORDERS;

#[derive(Clone, Copy, Debug, PartialEq, Eq)]
pub enum Call {
    ReadGrammar,
    WriteGrammar,
    CheckTrace,
    CheckTree,
    WeighTrace,
    WeighTree,
    TraceToTree,
    TreeToTrace,
    Count,
    Entry,
    Survey,
    DayNumber,
    DateOf,
    OpeningDay,
    IsOpen,
    MakeGrammar,
}

pub const CALLS: [Call; 16] = [
    Call::ReadGrammar,
    Call::WriteGrammar,
    Call::CheckTrace,
    Call::CheckTree,
    Call::WeighTrace,
    Call::WeighTree,
    Call::TraceToTree,
    Call::TreeToTrace,
    Call::Count,
    Call::Entry,
    Call::Survey,
    Call::DayNumber,
    Call::DateOf,
    Call::OpeningDay,
    Call::IsOpen,
    Call::MakeGrammar,
];

impl Call {
    /// The refusals that the call can meet.
    pub fn refusals(self) -> Vec<u8> {
        let file = 1..=10;
        let trace = (11..=18).chain([29]);
        let tree = [11, 29, 12, 13, 19, 20, 21, 22];
        match self {
            Call::ReadGrammar => file.collect(),
            Call::WriteGrammar => (4..=10).chain([23]).collect(),
            Call::CheckTrace | Call::WeighTrace => file.chain(trace).collect(),
            Call::CheckTree | Call::WeighTree => file.chain(tree).collect(),
            Call::TraceToTree => file.chain(trace).chain([23]).collect(),
            Call::TreeToTrace => file.chain(tree).chain([23]).collect(),
            Call::Count => file.chain([11, 24, 25, 29]).collect(),
            Call::Entry => file.chain([11, 23, 24, 25, 26, 29]).collect(),
            Call::Survey => file.chain([23]).collect(),
            Call::DayNumber | Call::DateOf => vec![27],
            Call::OpeningDay | Call::IsOpen => vec![27, 28],
            Call::MakeGrammar => vec![30, 10, 31, 23],
        }
    }

    /// Refusal 29 is about a sentence's places.
    fn is_given_a_sentence(self) -> bool {
        self.refusals().contains(&29)
    }
}

/// The sentences that a call was given.
#[derive(Clone, Copy, Default)]
struct Sentences {
    single_words: u64,
    unclear: u64,
    unclear_accepted: u64,
}

/// The highest sum of weights: 255 for each of 96 steps or nodes.
const HIGHEST_SUM: u32 = 96 * 255;

/// The days of the span: 400 years, 97 of them leap years.
pub const DAYS: usize = 400 * 365 + 97;

/// The refusals, from 1, and 0 for accepted.
const NUMBERS: usize = 32;

/// Why a lexicon is refused with 31, and which forms of the wanted category a made grammar starts from.
const EXCESSES: [&str; 3] = ["for its categories", "for its rules", "for want of a start"];
const START_FORMS: [&str; 3] = ["the lexical form", "the derived form", "both forms"];

/// How many calls the table has beside each other.
const BESIDE: usize = 11;

/// For each call how often it was accepted (at 0) and how often each refusal was met.
pub struct Tally {
    met: [[u64; NUMBERS]; CALLS.len()],
    sentences: [Sentences; CALLS.len()],
    /// Unclear sentences whose count and listing were compared with those of the clear sentences within their ranges, and how many of
    /// these have analyses of more than one clear sentence.
    pub unclear_listings: u64,
    pub listings_of_several: u64,
    /// Listings where trees and live prefixes were compared.
    pub agreements: u64,
    /// Round trips: a file's fields written again, a trace to its tree and back.
    pub round_trips: u64,
    /// Sums of weights compared along a trace and along its tree.
    pub sums: u64,
    pub highest_sum: u32,
    /// Grammars compared with themselves under other weights.
    pub reweighed: u64,
    /// For the reader and for the writer, how often each order of the daughters made a rule equal to an earlier one.
    orders: [[u64; ORDERS.len()]; 2],
    /// Files that were accepted with a rule that nearly equals another in some order of its daughters.
    pub near_misses: u64,
    /// Of each day whether its number led to its date and back, and whether its date led to its number and back.
    both_ways: Vec<[bool; 2]>,
    /// Terms whose opening day was compared with that of the term a month longer, which has one too.
    pub terms: u64,
    /// Lexicons refused with 31, for each reason.
    excesses: [u64; EXCESSES.len()],
    /// Made grammars with a start rule from the lexical form of the wanted category alone, from the derived one alone, and from both.
    start_forms: [u64; START_FORMS.len()],
    /// The most categories and the most rules of a made grammar.
    most_made: (usize, usize),
    /// Counts of made grammars beside the derivations of their lexicons: all, those above 0, and of these the ones of unclear sentences.
    derivations: [u64; 3],
    /// Runs of the program.
    pub programs: u64,
}

impl Tally {
    pub fn new() -> Tally {
        Tally {
            met: [[0; NUMBERS]; CALLS.len()],
            sentences: [Sentences::default(); CALLS.len()],
            unclear_listings: 0,
            listings_of_several: 0,
            agreements: 0,
            round_trips: 0,
            sums: 0,
            highest_sum: 0,
            reweighed: 0,
            orders: [[0; ORDERS.len()]; 2],
            near_misses: 0,
            both_ways: vec![[false; 2]; DAYS],
            terms: 0,
            excesses: [0; EXCESSES.len()],
            start_forms: [0; START_FORMS.len()],
            most_made: (0, 0),
            derivations: [0; 3],
            programs: 0,
        }
    }

    pub fn add(&mut self, call: Call, answer: Answer) {
        let number = match answer {
            Answer::Refused(refusal) => refusal.number as usize,
            _ => 0,
        };
        self.met[call as usize][number] += 1;
    }

    /// The call was given a sentence of single words or one with an unclear place.
    pub fn add_sentence(&mut self, call: Call, unclear: bool, answer: Answer) {
        let given = &mut self.sentences[call as usize];
        if unclear {
            given.unclear += 1;
            given.unclear_accepted += !matches!(answer, Answer::Refused(_)) as u64;
        } else {
            given.single_words += 1;
        }
    }

    pub fn single_words(&self) -> u64 {
        self.sentences.iter().map(|given| given.single_words).sum()
    }

    pub fn unclear(&self) -> u64 {
        self.sentences.iter().map(|given| given.unclear).sum()
    }

    pub fn accepted(&self, call: Call) -> u64 {
        self.met[call as usize][0]
    }

    /// The reader or the writer met a double by that one of the orders.
    pub fn add_order(&mut self, call: Call, order: usize) {
        self.orders[(call == Call::WriteGrammar) as usize][order] += 1;
    }

    pub fn doubles_in_another_order(&self) -> u64 {
        self.orders.iter().flatten().sum()
    }

    /// The day's number led to its date, and that date to the number.
    pub fn number_and_back(&mut self, number: usize) {
        self.both_ways[number][0] = true;
    }

    /// The day's date led to its number, and that number to the date.
    pub fn date_and_back(&mut self, number: usize) {
        self.both_ways[number][1] = true;
    }

    pub fn days_both_ways(&self) -> usize {
        self.both_ways.iter().filter(|ways| **ways == [true; 2]).count()
    }

    /// The reference made this grammar of a lexicon.
    pub fn add_made(&mut self, grammar: &Grammar) {
        let forms = [true, false]
            .map(|lexical| grammar.rules.iter().any(|rule| rule.category == grammar.start && lexical == is_entry(grammar, &rule.body)));
        self.start_forms[if forms == [true; 2] { 2 } else { forms[1] as usize }] += 1;
        self.most_made = (self.most_made.0.max(grammar.dimensions.len()), self.most_made.1.max(grammar.rules.len()));
    }

    /// The reference answered this to a lexicon: of refusal 31 the reason.
    pub fn add_lexicon(&mut self, given: &Given, answer: Answer) {
        if !matches!(answer, Answer::Refused(refusal) if refusal.number == 31) {
            return;
        }
        let lexicon = read_lexicon(&given.lexicon, given.words, given.start).expect("31 comes after 30 and 10");
        match named_grammar(&lexicon).expect_err("it is refused") {
            Excess::Categories => self.excesses[0] += 1,
            Excess::Rules => self.excesses[1] += 1,
            Excess::NoStart => self.excesses[2] += 1,
        }
    }

    /// A made grammar counted as many analyses of a sentence as its lexicon has derivations.
    pub fn add_derivations(&mut self, number: u64, unclear: bool) {
        self.derivations[0] += 1;
        self.derivations[1] += (number > 0) as u64;
        self.derivations[2] += (number > 0 && unclear) as u64;
    }

    pub fn derivations_compared(&self) -> u64 {
        self.derivations[0]
    }

    pub fn derivations_found(&self) -> u64 {
        self.derivations[1]
    }

    pub fn lexicons(&self) -> String {
        let list = |numbers: &[u64], names: &[&str]| {
            numbers.iter().zip(names).map(|(number, name)| format!("{number} {name}")).collect::<Vec<_>>().join(", ")
        };
        format!("made grammars start from {}; 31 {}", list(&self.start_forms, &START_FORMS), list(&self.excesses, &EXCESSES))
    }

    /// The number of inputs compared.
    pub fn inputs(&self) -> u64 {
        self.met.iter().flatten().sum()
    }

    /// What a run has to meet and did not, in words.
    pub fn missing(&self) -> Vec<String> {
        let mut missing = Vec::new();
        for call in CALLS {
            let met = &self.met[call as usize];
            if met[0] == 0 {
                missing.push(format!("{call:?} was never accepted"));
            }
            for number in call.refusals() {
                if met[number as usize] == 0 {
                    missing.push(format!("{call:?} never met refusal {number}"));
                }
            }
            if call.is_given_a_sentence() && self.sentences[call as usize].unclear_accepted == 0 {
                missing.push(format!("{call:?} never accepted an unclear sentence"));
            }
        }
        if self.single_words() < self.unclear() {
            missing.push("more unclear sentences than sentences of single words".to_string());
        }
        for (call, orders) in [Call::ReadGrammar, Call::WriteGrammar].into_iter().zip(&self.orders) {
            for (order, _) in ORDERS.iter().zip(orders).filter(|(_, &met)| met == 0) {
                missing.push(format!("{call:?} never met a double in the order {order:?}"));
            }
        }
        if self.highest_sum < HIGHEST_SUM {
            missing.push(format!("no analysis had the sum {HIGHEST_SUM}"));
        }
        if self.days_both_ways() < DAYS {
            missing.push(format!("{} of {DAYS} days both ways", self.days_both_ways()));
        }
        for (name, _) in START_FORMS.iter().zip(self.start_forms).filter(|(_, made)| *made == 0) {
            missing.push(format!("made grammars never started from {name} of the wanted category"));
        }
        for (name, _) in EXCESSES.iter().zip(self.excesses).filter(|(_, met)| *met == 0) {
            missing.push(format!("MakeGrammar never met 31 {name}"));
        }
        if self.most_made != (64, 256) {
            missing.push(format!("made grammars had at most {:?} categories and rules, not 64 and 256", self.most_made));
        }
        for (done, none) in [
            (self.round_trips, "no round trip"),
            (self.agreements, "no listing by trees and by live prefixes"),
            (self.listings_of_several, "no unclear sentence of which several clear ones are analysed"),
            (self.reweighed, "no grammar with other weights"),
            (self.near_misses, "no near miss of a double"),
            (self.terms, "no term beside the next longer one"),
            (self.derivations[1], "no count above 0 of a made grammar beside its derivations"),
            (self.derivations[2], "no count above 0 of a made grammar and an unclear sentence"),
        ] {
            if done == 0 {
                missing.push(none.to_string());
            }
        }
        missing
    }

    /// The table of some calls, with the rows that they can meet.
    fn table(&self, f: &mut fmt::Formatter, calls: &[Call]) -> fmt::Result {
        write!(f, "{:>13}{:>9}", "", "all")?;
        for call in calls {
            write!(f, "{:>13}", format!("{call:?}"))?;
        }
        writeln!(f)?;
        for number in 0..NUMBERS {
            let met: Vec<u64> = calls.iter().map(|&call| self.met[call as usize][number]).collect();
            let can: Vec<bool> = calls.iter().map(|call| number == 0 || call.refusals().contains(&(number as u8))).collect();
            let all: u64 = met.iter().sum();
            if all == 0 && !can.contains(&true) {
                continue;
            }
            write!(f, "{:>13}{all:>9}", row(number))?;
            for (can, met) in can.into_iter().zip(met) {
                let shown = if can || met > 0 { met.to_string() } else { "-".to_string() };
                write!(f, "{shown:>13}")?;
            }
            writeln!(f)?;
        }
        Ok(())
    }
}

/// Whether the body's one daughter is the category of an entry: it has a lexical rule.
fn is_entry(grammar: &Grammar, body: &Body) -> bool {
    let has_word = |daughter: usize| grammar.rules.iter().any(|rule| rule.category == daughter && matches!(rule.body, Body::Lexical(_)));
    matches!(body, Body::Nonlexical { daughters, .. } if daughters.iter().all(|&daughter| has_word(daughter)))
}

/// A row of the table: accepted, or whose refusal and which.
fn row(number: usize) -> String {
    match number {
        0 => "accepted".to_string(),
        1..=10 | 30 | 31 => format!("grammar's {number}"),
        11..=22 | 29 => format!("analysis's {number}"),
        _ => format!("desk's {number}"),
    }
}

impl fmt::Display for Tally {
    fn fmt(&self, f: &mut fmt::Formatter) -> fmt::Result {
        CALLS.chunks(BESIDE).try_for_each(|calls| self.table(f, calls))
    }
}

#[cfg(test)]
mod tests {
    use super::*;
    use crate::lexicons::full;
    use reference::file::read;

    /// A day that was gone through one way alone is missing.
    #[test]
    fn every_day_both_ways() {
        let mut tally = Tally::new();
        let days = |tally: &Tally| tally.missing().into_iter().find(|text| text.ends_with("days both ways"));
        for number in 0..DAYS {
            tally.date_and_back(number);
            tally.number_and_back(number.max(1));
        }
        assert_eq!(days(&tally), Some("146096 of 146097 days both ways".to_string()));
        tally.number_and_back(0);
        assert_eq!(days(&tally), None);
    }

    /// An order that the reader or the writer alone met is missing for the other.
    #[test]
    fn every_order_read_and_written() {
        let mut tally = Tally::new();
        let orders = |tally: &Tally| tally.missing().into_iter().filter(|text| text.contains("order")).collect::<Vec<_>>();
        assert_eq!(orders(&tally).len(), 12);
        for order in 0..ORDERS.len() {
            tally.add_order(Call::ReadGrammar, order);
            tally.add_order(Call::WriteGrammar, order.max(1));
        }
        assert_eq!(orders(&tally), ["WriteGrammar never met a double in the order [1, 0]"]);
        tally.add_order(Call::WriteGrammar, 0);
        assert_eq!(orders(&tally), Vec::<String>::new());
        assert_eq!(tally.doubles_in_another_order(), 13);
    }

    /// Each call that is given a sentence has to accept an unclear one, and sentences of single words have to be half of all.
    #[test]
    fn unclear_and_single_words() {
        let mut tally = Tally::new();
        let missing = |tally: &Tally| tally.missing().into_iter().filter(|text| text.contains("unclear sentence")).collect::<Vec<_>>();
        tally.listings_of_several = 1;
        tally.add_derivations(1, true);
        assert_eq!(missing(&tally).len(), 8);
        for call in CALLS.into_iter().filter(|call| call.is_given_a_sentence()) {
            tally.add_sentence(call, true, Answer::Refused(reference::Refusal::desk(25)));
            tally.add_sentence(call, false, Answer::Accepted(1));
        }
        assert_eq!(missing(&tally).len(), 8);
        for call in CALLS.into_iter().filter(|call| call.is_given_a_sentence() && *call != Call::Entry) {
            tally.add_sentence(call, true, Answer::Accepted(1));
            tally.add_sentence(call, false, Answer::Accepted(1));
        }
        assert_eq!(missing(&tally), ["Entry never accepted an unclear sentence"]);
        tally.add_sentence(Call::Entry, true, Answer::Accepted(1));
        assert_eq!(missing(&tally), ["more unclear sentences than sentences of single words"]);
    }

    /// What was never done is missing.
    #[test]
    fn nothing_done() {
        let mut tally = Tally::new();
        let none = |tally: &Tally| tally.missing().into_iter().filter(|text| text.starts_with("no ")).collect::<Vec<_>>();
        let all = [
            "no analysis had the sum 24480",
            "no round trip",
            "no listing by trees and by live prefixes",
            "no unclear sentence of which several clear ones are analysed",
            "no grammar with other weights",
            "no near miss of a double",
            "no term beside the next longer one",
            "no count above 0 of a made grammar beside its derivations",
            "no count above 0 of a made grammar and an unclear sentence",
        ];
        assert_eq!(none(&tally), all);
        (tally.round_trips, tally.agreements, tally.reweighed, tally.highest_sum) = (1, 1, 1, HIGHEST_SUM);
        (tally.near_misses, tally.listings_of_several) = (1, 1);
        assert_eq!(none(&tally), &all[6..]);
        tally.terms = 1;
        tally.add_derivations(0, true);
        assert_eq!(none(&tally), &all[7..]);
        tally.add_derivations(2, false);
        assert_eq!(none(&tally), &all[8..]);
        tally.add_derivations(1, true);
        assert_eq!(none(&tally), Vec::<String>::new());
        assert_eq!((tally.derivations_compared(), tally.derivations_found()), (3, 2));
    }

    /// A form of the wanted category, a reason for 31 and a limit that were never met are missing.
    #[test]
    fn lexicons_of_every_kind() {
        let mut tally = Tally::new();
        let missing =
            |tally: &Tally| tally.missing().into_iter().filter(|text| text.contains("made") || text.contains("31 ")).collect::<Vec<_>>();
        assert_eq!(missing(&tally).len(), 3 + 3 + 1 + 2);
        let mut add = |text: &str, start: &str| {
            let given = Given::of_text(text, start);
            match given.file() {
                Some(file) => tally.add_made(&read(&file).unwrap()),
                None => tally.add_lexicon(&given, Answer::Refused(reference::Refusal::grammar(31, 0))),
            }
            (tally.start_forms, tally.excesses, tally.most_made)
        };
        assert_eq!(add("a :: c", "c"), ([1, 0, 0], [0, 0, 0], (2, 2)));
        assert_eq!(add("a :: d\nb :: =d c", "c"), ([1, 1, 0], [0, 0, 0], (4, 4)));
        assert_eq!(add("a :: c\nb :: =c c", "c"), ([1, 1, 1], [0, 0, 0], (4, 6)));
        assert_eq!(add("a :: d\nb :: =c d", "c"), ([1, 1, 1], [0, 0, 1], (4, 6)));
        for (words, others) in [(17, 3), (18, 3), (16, 4)] {
            let given = full(words, others);
            tally.add_lexicon(&given, Answer::Refused(reference::Refusal::grammar(31 - (words == 17) as u8, 0)));
            given.file().iter().for_each(|file| tally.add_made(&read(file).unwrap()));
        }
        assert_eq!((tally.start_forms, tally.excesses, tally.most_made), ([1, 1, 2], [1, 1, 1], (64, 256)));
        assert_eq!(missing(&tally).len(), 2);
    }
}
