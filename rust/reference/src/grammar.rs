//! A grammar, as document 01 describes it ("A grammar"), with a weight on each rule (document 02, paper 1).

/// 65,535 in a record's word field: the empty word.
pub const EMPTY_WORD: u16 = 65_535;

#[derive(Clone, Debug, PartialEq, Eq)]
pub struct Grammar {
    /// One dimension for each category.
    pub dimensions: Vec<usize>,
    pub start: usize,
    pub words: usize,
    pub rules: Vec<Rule>,
}

#[derive(Clone, Debug, PartialEq, Eq, PartialOrd, Ord)]
pub struct Rule {
    pub category: usize,
    pub body: Body,
    /// Of every rule, lexical or not.
    pub weight: u8,
}

#[derive(Clone, Debug, PartialEq, Eq, PartialOrd, Ord)]
pub enum Body {
    /// A lexical rule: one word, or the empty word.
    Lexical(Option<u16>),
    /// A nonlexical rule: its daughters' categories, and a sequence of variables for each component of its own category.
    Nonlexical { daughters: Vec<usize>, components: Vec<Vec<Variable>> },
}

#[derive(Clone, Copy, Debug, PartialEq, Eq, PartialOrd, Ord)]
pub struct Variable {
    pub daughter: usize,
    pub component: usize,
}
