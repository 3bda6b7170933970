//! The README of an example. First what is said of it by hand, then its words, rules, sentence, output and analyses, which are made from its
//! files, so that they say what the files hold.

use reference::file::read;
use reference::grammar::{Body, Grammar, Rule, Variable};
use reference::notation::places;
use reference::sentence::{highest, lowest};
use reference::trace::trace_to_tree;
use reference::tree::{check_tree, joined, Tree};

/// The length of a line, where it can be broken.
const WIDTH: usize = 110;

/// With more rules than this, two that are short enough stand in one line, the second from this column on.
const MOST_LINES: usize = 20;
const SECOND_COLUMN: usize = 58;

/// A grammar with the names of its categories and the forms of its words.
pub struct Named {
    grammar: Grammar,
    categories: Vec<String>,
    words: Vec<String>,
}

/// A sentence, and what is printed for it.
pub struct Run<'a> {
    /// What the sentence is called.
    pub name: &'static str,
    pub sentence: &'a [u32],
    pub node_limit: u8,
    pub command: String,
    /// The file with what the command prints.
    pub file: &'static str,
    pub printed: &'a [u8],
    /// What each analysis is, said by hand, as far as it is said.
    pub readings: &'static [&'static str],
}

/// The README: what is said of the example by hand, the grammar, the sentences, and what is said last.
pub fn readme(about: &str, named: &Named, runs: &[Run], last: &str) -> String {
    let mut lines = filled(about);
    lines.extend([String::new(), format!("Words: {}.", numbered(&named.words, 0)), String::new()]);
    lines.push("Rules. The letters on the left say of which strings of the daughters each component is made:".to_string());
    lines.extend([String::new()].into_iter().chain(indented(named.rules())));
    let mut all_in_order = true;
    for run in runs {
        let (section, in_order) = named.section(run);
        lines.extend([String::new()].into_iter().chain(section));
        all_in_order &= in_order;
    }
    let mut legend = LEGEND.to_string();
    if !all_in_order {
        legend += " Its words stand in the order of the daughters; word@k is at place k of the sentence, from 0.";
    }
    lines.extend([String::new()].into_iter().chain(filled(&legend)));
    if !last.is_empty() {
        lines.extend([String::new()].into_iter().chain(filled(last)));
    }
    lines.join("\n") + "\n"
}

const LEGEND: &str = "A trace has the rules of the recognizer's steps, in their order. A live prefix is a list of rules that apply in turn, where steps made and predictions left are together never more than N. A tree has the rules of its nodes, parent before daughters, daughters in rule order; the line in brackets under it is the same tree.";

/// Names with their numbers, from this one on.
pub fn numbered(names: &[String], from: usize) -> String {
    let numbers = names.iter().enumerate().map(|(i, name)| format!("{} {name}", from + i));
    numbers.collect::<Vec<_>>().join(", ")
}

impl Named {
    /// The grammar of an accepted file, with a name for each category and a form for each word.
    pub fn new(file: &[u8], categories: Vec<String>, words: Vec<String>) -> Named {
        let grammar = read(file).expect("an example's grammar is accepted");
        assert_eq!(categories.len(), grammar.dimensions.len(), "a category has a name");
        assert_eq!(words.len(), grammar.words, "a word has a form");
        Named { grammar, categories, words }
    }

    /// A rule in the writing of `reference::notation`, with the form of its word. The letters are alphabetical on the left.
    pub fn rule(&self, rule: &Rule) -> String {
        let category = &self.categories[rule.category];
        match &rule.body {
            Body::Lexical(None) => format!("{category} <- empty"),
            Body::Lexical(Some(word)) => format!("{category} <- {word} ({})", self.words[*word as usize]),
            Body::Nonlexical { daughters, components } => {
                let variables = components.concat();
                let first = b'x'.min(b'z' + 1 - variables.len() as u8);
                let letter = |variable: &Variable| {
                    let place = variables.iter().position(|known| known == variable).expect("every variable occurs");
                    (first + place as u8) as char
                };
                let left: Vec<String> = components.iter().map(|component| component.iter().map(letter).collect()).collect();
                let right = daughters.iter().enumerate().map(|(daughter, &named)| {
                    let components = 0..self.grammar.dimensions[named];
                    let letters: Vec<String> = components.map(|component| letter(&Variable { daughter, component }).to_string()).collect();
                    format!("{}({})", self.categories[named], letters.join(","))
                });
                format!("{category}({}) <- {}", left.join(","), right.collect::<Vec<_>>().join(" "))
            }
        }
    }

    /// The rules, each with its number.
    fn rules(&self) -> Vec<String> {
        let rules = self.grammar.rules.iter().enumerate().map(|(number, rule)| format!("{number:>2}  {}", self.rule(rule)));
        let rules: Vec<String> = rules.collect();
        if rules.len() <= MOST_LINES {
            return rules;
        }
        let mut lines: Vec<String> = Vec::new();
        for rule in rules {
            match lines.last_mut() {
                Some(line) if line.len() < SECOND_COLUMN - 1 => *line = format!("{line:<SECOND_COLUMN$}{rule}"),
                _ => lines.push(rule),
            }
        }
        lines
    }

    /// A sentence and what is printed for it, and whether the words at the leaves of each tree stand in the order of the sentence.
    fn section(&self, run: &Run) -> (Vec<String>, bool) {
        let spelled: Vec<String> =
            run.sentence.iter().map(|&place| self.words[lowest(place) as usize..=highest(place) as usize].join("/")).collect();
        let mut lines = vec![
            format!("{}: {} ({}), N = {}.", run.name, places(run.sentence), spelled.join(" "), run.node_limit),
            format!("{} prints, as the file {} has it:", run.command, run.file),
            String::new(),
        ];
        let printed = std::str::from_utf8(run.printed).expect("the program prints text");
        let width = printed.lines().map(str::len).max().unwrap_or(0);
        let meant = printed.lines().enumerate().map(|(k, line)| {
            let meaning = match k {
                0 => figures(line),
                _ => format!("the trace of analysis {}", k - 1),
            };
            format!("{line:<width$}    {meaning}")
        });
        lines.extend(indented(meant.collect()));
        let mut all_in_order = true;
        for (m, line) in printed.lines().skip(1).enumerate() {
            let trace: Vec<u16> = line.split(' ').map(|number| number.parse().expect("a trace is numbers")).collect();
            let list = trace_to_tree(&self.grammar, run.sentence, &trace).expect("a listed trace is accepted");
            let tree = check_tree(&self.grammar, run.sentence, &list).expect("its tree is accepted");
            let (bracketed, in_order) = self.bracketed(&tree);
            all_in_order &= in_order;
            let reading = run.readings.get(m).map(|reading| format!(": {reading}")).unwrap_or_default();
            lines.extend([String::new()].into_iter().chain(filled(&format!("Analysis {m}{reading}."))));
            let numbers: Vec<String> = list.iter().map(u16::to_string).collect();
            lines.push(format!("    tree {}", numbers.join(" ")));
            lines.extend(indented(bracketed.lines(WIDTH - 4)));
        }
        (lines, all_in_order)
    }

    /// A tree in brackets, and whether its words stand in the order of the sentence. Where they do not, each has its place.
    fn bracketed(&self, tree: &Tree) -> (Bracketed, bool) {
        let order = self.order(tree, &mut 0).concat();
        let in_order = order.is_sorted();
        (self.bracketed_from(tree, &mut 0, if in_order { None } else { Some(&order) }), in_order)
    }

    fn bracketed_from(&self, tree: &Tree, next: &mut u16, order: Option<&[u16]>) -> Bracketed {
        let rule = &self.grammar.rules[tree.rule as usize];
        let node = *next;
        *next += 1;
        let word = match rule.body {
            Body::Lexical(None) => Some("empty".to_string()),
            Body::Lexical(Some(word)) => {
                let place = order.and_then(|order| order.iter().position(|&other| other == node));
                Some(self.words[word as usize].clone() + &place.map(|place| format!("@{place}")).unwrap_or_default())
            }
            Body::Nonlexical { .. } => None,
        };
        let daughters = tree.daughters.iter().map(|daughter| self.bracketed_from(daughter, next, order)).collect();
        Bracketed { category: self.categories[rule.category].clone(), word, daughters }
    }

    /// The yield of a node, where each word is told by the number that its node has in the list of the tree.
    fn order(&self, tree: &Tree, next: &mut u16) -> Vec<Vec<u16>> {
        let rule = &self.grammar.rules[tree.rule as usize];
        let node = *next;
        *next += 1;
        let daughters: Vec<_> = tree.daughters.iter().map(|daughter| self.order(daughter, next)).collect();
        match rule.body {
            Body::Lexical(word) => vec![word.iter().map(|_| node).collect()],
            Body::Nonlexical { .. } => joined(rule, &daughters),
        }
    }
}

/// The meaning of the first line.
fn figures(line: &str) -> String {
    let (count, effort) = line.split_once(' ').expect("the first line is count and effort");
    let analyses = if count == "1" { "analysis" } else { "analyses" };
    format!("{count} {analyses}, found among {effort} live prefixes")
}

/// A tree with the names of its categories, and words at its leaves.
struct Bracketed {
    category: String,
    /// Of a lexical node.
    word: Option<String>,
    daughters: Vec<Bracketed>,
}

impl Bracketed {
    fn line(&self) -> String {
        let inside = self.word.iter().cloned().chain(self.daughters.iter().map(Bracketed::line));
        format!("[{} {}]", self.category, inside.collect::<Vec<_>>().join(" "))
    }

    /// In lines of this length where that can be: a leaf stays in the line of the node above it, where it is the first daughter.
    fn lines(&self, width: usize) -> Vec<String> {
        let line = self.line();
        if line.len() <= width || self.word.is_some() {
            return vec![line];
        }
        let leaves = self.daughters.iter().take_while(|daughter| daughter.word.is_some()).count();
        let mut lines = vec![format!("[{}", self.category)];
        for leaf in &self.daughters[..leaves] {
            lines[0] += &format!(" {}", leaf.line());
        }
        for daughter in &self.daughters[leaves..] {
            lines.extend(daughter.lines(width.saturating_sub(2)).into_iter().map(|line| format!("  {line}")));
        }
        lines.last_mut().expect("there is a line").push(']');
        lines
    }
}

fn indented(lines: Vec<String>) -> Vec<String> {
    lines.into_iter().map(|line| format!("    {line}")).collect()
}

/// The paragraphs of a text, in lines.
fn filled(text: &str) -> Vec<String> {
    text.split('\n').flat_map(paragraph).collect()
}

fn paragraph(text: &str) -> Vec<String> {
    let mut lines: Vec<String> = Vec::new();
    for word in text.split(' ') {
        match lines.last_mut() {
            Some(line) if line.len() + 1 + word.len() <= WIDTH => *line += &format!(" {word}"),
            _ => lines.push(word.to_string()),
        }
    }
    lines
}

#[cfg(test)]
mod tests {
    use reference::notation::{category_names, grammar_file};
    use reference::samples::{AGREEMENT, ATTACHMENT, SMALL};

    use super::*;

    fn named(text: &str) -> Named {
        let file = grammar_file(text);
        let words = read(&file).unwrap().words;
        Named::new(&file, category_names(text), (0..words).map(|word| format!("w{word}")).collect())
    }

    /// The rules as a README has them, without the forms, make the same file.
    #[test]
    fn the_rules_in_writing_are_the_grammar() {
        for text in SMALL.into_iter().chain([AGREEMENT, ATTACHMENT]) {
            let named = named(text);
            let rules = named.grammar.rules.iter().map(|rule| named.rule(rule));
            let without_forms = rules.map(|rule| rule.split(" (").next().expect("a first part").to_string());
            assert_eq!(grammar_file(&without_forms.collect::<Vec<_>>().join("\n")), grammar_file(text), "{text}");
        }
    }

    #[test]
    fn letters_are_alphabetical_on_the_left() {
        let named = named("S(xy) <- P(y,x)\nP(ax,cy) <- A(a) P(x,y) A(c)\nP(,x) <- A(x)\nA <- 0\nA <- empty");
        let rules: Vec<String> = named.grammar.rules.iter().map(|rule| named.rule(rule)).collect();
        assert_eq!(rules, ["S(xy) <- P(y,x)", "P(wx,yz) <- A(w) P(x,z) A(y)", "P(,x) <- A(x)", "A <- 0 (w0)", "A <- empty"]);
    }

    #[test]
    fn words_out_of_order_have_their_places() {
        let named = named(reference::samples::COPY);
        let list = [0, 1, 5, 4, 6, 6, 5];
        let tree = check_tree(&named.grammar, &[0, 1, 0, 1].map(reference::word), &list).unwrap();
        let (bracketed, in_order) = named.bracketed(&tree);
        assert_eq!(bracketed.line(), "[S [P [A w0@0] [P [B w1@1] [B w1@3]] [A w0@2]]]");
        assert!(!in_order);
        assert_eq!(bracketed.lines(30), ["[S", "  [P [A w0@0]", "    [P [B w1@1] [B w1@3]]", "    [A w0@2]]]"]);
    }
}
