//! Document 01 and papers 1, 3, 4, 5 and 6 of document 02 a second time, in plain Rust and from the documents alone: literal, simple and
//! not fast; paper 2 changes no answer. Indices are lists of digits, the queue is sorted, trees are enumerated one by one, so are the dates
//! of four hundred years, a rule is compared with every earlier one in every order of its daughters, the grammar of a lexicon is a set of
//! rules between named categories, and minimalist derivations are counted without it. The proved library is compared with it, call by
//! call.

pub mod dates;
pub mod derivations;
pub mod double;
pub mod file;
pub mod grammar;
pub mod lexicon;
pub mod lexicon_notation;
pub mod listing;
pub mod live;
pub mod made;
pub mod minimalist;
pub mod notation;
pub mod program;
pub mod queue;
pub mod record;
pub mod reference;
pub mod renaming;
pub mod samples;
pub mod schemes;
pub mod sentence;
pub mod survey;
pub mod trace;
pub mod tree;
pub mod weight;
pub mod writer;

pub use interface as calls;
pub use interface::{word, words, Answer, Calls, Date, DateCalls, Heading, Refusal, TreeCalls, Whose};
pub use reference::Reference;
