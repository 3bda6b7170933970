//! Writes the folders of `examples/` at the top of the repository, each with the files `grammar` and `sentence`, with `expected`, which is
//! what the program prints for them, and with a `README` that has words, rules and analyses in writing (`readme`). A folder with words
//! heard unclearly also has the file `heard` with its places in writing, and `expected_heard`, which is what `call` prints for them. A
//! folder with a lexicon has it in the file `lexicon` and in writing in the file `entries`; its grammar is the one that the library makes
//! of it, in the library's numbering. The tests also compare the dumps of `docs/FORMAT.md` with these files (`format`).

#[cfg(test)]
mod format;
mod readme;

use std::path::{Path, PathBuf};
use std::{fs, io};

use downgrater::Answer;
use reference::file::{read, BLOCK};
use reference::lexicon::{read_lexicon, Feature, ENTRY};
use reference::lexicon_notation::WrittenLexicon;
use reference::listing::listing;
use reference::made::{make, named_grammar, Name};
use reference::notation::{category_names, grammar_file, places};
use reference::program::{output, printed, sentence_file, EFFORT_LIMIT};
use reference::renaming::renaming;
use reference::samples::{AGREEMENT, ATTACHMENT, COPY, CROSSING, PAIR, QUESTION};
use reference::sentence::single_words;
use reference::words;

use crate::readme::{numbered, readme, Named, Run};

/// Where an example's grammar comes from.
enum Source {
    /// Rules in writing, and the forms of the words.
    Rules(&'static str, &'static [&'static str]),
    /// A lexicon in writing, and its start category.
    Lexicon(&'static str, &'static str),
}

struct Example {
    folder: &'static str,
    grammar: Source,
    node_limit: u8,
    sentence: &'static [u16],
    /// What the README says first.
    about: &'static str,
    /// What the README says of each analysis, in the order of the listing, as far as it says something.
    readings: &'static [&'static str],
    /// The sentence with words heard unclearly, where there are some.
    heard: Option<Heard>,
    /// What the README says last.
    last: &'static str,
}

struct Heard {
    /// The lowest and the highest word of each place.
    places: &'static [(u16, u16)],
    readings: &'static [&'static str],
}

const EXAMPLES: [Example; 7] = [
    Example {
        folder: "copy",
        grammar: Source::Rules(COPY, &["a", "b"]),
        node_limit: 7,
        sentence: &[0, 1, 0, 1],
        about: "The copy grammar of document 01: a string over two words, twice. Count and effort are those of K5, the trace is that of K3 and the tree that of K4.",
        readings: &["a b, twice"],
        heard: None,
        last: "",
    },
    Example {
        folder: "pair",
        grammar: Source::Rules(PAIR, &["a"]),
        node_limit: 5,
        sentence: &[0, 0, 0],
        about: "The pair grammar of document 01 (K10): every way to put a row of words into pairs.",
        readings: &["the first two words are a pair", "the last two words are a pair"],
        heard: None,
        last: "",
    },
    Example {
        folder: "attachment",
        grammar: Source::Rules(ATTACHMENT, &["I", "saw", "the", "man", "with", "telescope"]),
        node_limit: 13,
        sentence: &[0, 1, 2, 3, 4, 2, 5],
        about: "Attachment of a prepositional phrase: to the noun phrase before it, or to the verb phrase. A tree for n words has 2n - 1 nodes, one for each word and n - 1 with two daughters, so that N = 13 is just enough for 7 words.",
        readings: &["NP attachment, the man had the telescope", "VP attachment, the telescope was used to see"],
        heard: None,
        last: "",
    },
    Example {
        folder: "crossing",
        grammar: Source::Rules(CROSSING, &["a", "b", "c", "d"]),
        node_limit: 16,
        sentence: &[0, 0, 0, 1, 1, 2, 2, 2, 3, 3],
        about: "The grammar of W11-0605, section 2.1, for i times a, j times b, i times c, j times d. The a's go with the c's across the b's, and the b's with the d's across the c's.",
        readings: &["i = 3, j = 2"],
        heard: None,
        last: "",
    },
    Example {
        folder: "worked",
        grammar: Source::Rules(CROSSING, &["a", "b", "c", "d"]),
        node_limit: 10,
        sentence: &[0, 1, 1, 2, 3, 3],
        about: "The worked example of W11-0605, section 4.1. The source's rules a to i are rules 0 to 8 here; its ten steps a c f d g e g h i i are the trace 0 2 5 3 6 4 6 7 8 8.",
        readings: &[],
        heard: None,
        last: "",
    },
    Example {
        folder: "unclear",
        grammar: Source::Rules(AGREEMENT, &["the", "dog", "dogs", "barks", "bark"]),
        node_limit: 5,
        sentence: &[0, 1, 3],
        about: "Subject and verb that agree, singular (NS, CS, VS) or plural (NP, CP, VP). The file heard has the same sentence with both endings heard unclearly: of the four sentences that may have been said, the two that agree have an analysis each.",
        readings: &[],
        heard: Some(Heard { places: &[(0, 0), (1, 2), (3, 4)], readings: &["the dog barks", "the dogs bark"] }),
        last: "",
    },
    Example {
        folder: "question",
        grammar: Source::Lexicon(QUESTION, "C"),
        node_limit: 15,
        sentence: &[1, 5, 3, 2, 4],
        about: "English questions by a lexicon of features. The file lexicon has its entries, the file entries has them in writing, and `make_grammar examples/question/lexicon 8 2` makes the grammar of them (8 words, wanted category C, which is 2). A category is a tuple as in W11-0605, section 3: 1 for an entry and 0 for what merge and move make, the features of the head, and those of each chain that still moves. Category start is the new start.",
        readings: &["who is merged as the object of likes, and an empty complementizer attracts it to the front of the embedded question. The derivation has 14 nodes; the new start's is one more"],
        heard: None,
        last: "`call examples/question 3 0 1 6` counts a main question, who does Mary like, whose complementizer is does.",
    },
];

/// The files of an example with their contents.
fn files(example: &Example) -> Vec<(PathBuf, Vec<u8>)> {
    let folder = Path::new(env!("CARGO_MANIFEST_DIR")).join("../../examples").join(example.folder);
    let mut files = Vec::new();
    let (grammar, categories, forms) = match example.grammar {
        Source::Rules(text, forms) => (grammar_file(text), category_names(text), forms.iter().map(|form| form.to_string()).collect()),
        Source::Lexicon(text, start) => {
            let written = WrittenLexicon::new(text);
            files.push(("entries", in_writing(text, &written).into_bytes()));
            let start = written.category(start);
            let grammar = made_grammar(&written, start, &folder.join("grammar"));
            let categories = made_categories(&written, start, &grammar);
            files.push(("lexicon", written.bytes));
            (grammar, categories, written.words)
        }
    };
    let sentence = sentence_file(example.node_limit, example.sentence);
    let expected = output(&grammar, &sentence);
    let clear = single_words(example.sentence);
    let mut runs = vec![Run {
        name: "Sentence",
        sentence: &clear,
        node_limit: example.node_limit,
        command: format!("`./count examples/{}`", example.folder),
        file: "expected",
        printed: &expected,
        readings: example.readings,
    }];
    let heard = example.heard.as_ref().map(|heard| {
        let places: Vec<u32> = heard.places.iter().map(|&(lowest, highest)| words(lowest, highest)).collect();
        let printed = printed_for(&grammar, &places, example.node_limit);
        (places, printed, heard.readings)
    });
    if let Some((heard, printed, readings)) = &heard {
        runs.push(Run {
            name: "Heard unclearly",
            sentence: heard,
            node_limit: example.node_limit,
            command: format!("`call examples/{} {}`", example.folder, places(heard)),
            file: "expected_heard",
            printed,
            readings,
        });
        files.extend([("heard", format!("{}\n", places(heard)).into_bytes()), ("expected_heard", printed.clone())]);
    }
    let text = readme(example.about, &Named::new(&grammar, categories, forms), &runs, example.last);
    files.extend([("README", text.into_bytes()), ("expected", expected), ("grammar", grammar), ("sentence", sentence)]);
    files.into_iter().map(|(name, contents)| (folder.join(name), contents)).collect()
}

/// The grammar file that the library makes. Where there was no library when this was built, the file that is there, if it is the lexicon's
/// grammar in any numbering, and otherwise the reference's.
fn made_grammar(written: &WrittenLexicon, start: u32, held: &Path) -> Vec<u8> {
    let (lexicon, words) = (&written.bytes, written.word_count());
    let by_reference = make(lexicon, words, start).expect("the example's lexicon is accepted");
    let is_the_same = |file: &[u8]| match (read(&by_reference), read(file)) {
        (Ok(expected), Ok(grammar)) => renaming(&expected, &grammar).is_some(),
        _ => false,
    };
    if let Ok(library) = downgrater::library() {
        let mut file = vec![0; 14 * BLOCK];
        let Answer::Accepted(length) = library.make_grammar(lexicon, words, start, &mut file) else {
            panic!("the library refuses the example's lexicon");
        };
        file.truncate(length as usize);
        assert!(is_the_same(&file), "the library makes another grammar");
        return file;
    }
    fs::read(held).ok().filter(|file| is_the_same(file)).unwrap_or(by_reference)
}

/// The categories of a lexicon's grammar as tuples of features, in the numbering of this file.
fn made_categories(written: &WrittenLexicon, start: u32, file: &[u8]) -> Vec<String> {
    let (lexicon, words) = (&written.bytes, written.word_count());
    let by_reference = read(&make(lexicon, words, start).expect("the example's lexicon is accepted")).expect("so is its grammar");
    let numbers = read(file).ok().and_then(|grammar| renaming(&by_reference, &grammar)).expect("the file is the lexicon's grammar");
    let named = named_grammar(&read_lexicon(lexicon, words, start).expect("the lexicon is accepted")).expect("it has a grammar");
    let mut categories = vec![String::new(); numbers.len()];
    for (name, number) in named.categories.iter().zip(numbers) {
        categories[number] = in_features(written, name);
    }
    categories
}

/// A category as in W11-0605, section 3: <1, =D V> for an entry's, <0, V, -wh> for a derived one with a moving chain.
fn in_features(written: &WrittenLexicon, name: &Name) -> String {
    let Name::Of(tuple) = name else { return "start".to_string() };
    let feature = |feature: &Feature| match *feature {
        Feature::Category(number) => written.categories[number as usize - 1].clone(),
        Feature::Selector(number) => format!("={}", written.categories[number as usize - 1]),
        Feature::Licensor(number) => format!("+{}", written.licensees[number as usize - 33]),
        Feature::Licensee(number) => format!("-{}", written.licensees[number as usize - 33]),
    };
    let chains = tuple.chains.iter().map(|chain| chain.iter().map(feature).collect::<Vec<_>>().join(" "));
    let parts: Vec<String> = [(tuple.lexical as u8).to_string()].into_iter().chain(chains).collect();
    format!("<{}>", parts.join(", "))
}

/// The numbers of the names, and the entries of a lexicon in words and in bytes.
fn in_writing(text: &str, written: &WrittenLexicon) -> String {
    let mut lines = vec![
        format!("words: {}, 65535 empty", numbered(&written.words, 0)),
        format!("categories, each with its selector 16 above it: {}", numbered(&written.categories, 1)),
        format!("licensors, each with its licensee 16 above it: {}", numbered(&written.licensees, 33)),
        String::new(),
    ];
    let entries = text.lines().filter(|line| !line.trim().is_empty()).zip(written.bytes.chunks(ENTRY));
    lines.extend(entries.map(|(line, entry)| {
        let bytes: Vec<String> = entry.iter().map(|byte| format!("{byte:>3}")).collect();
        format!("{line:<20}{}", bytes.join(" "))
    }));
    lines.join("\n") + "\n"
}

/// What `call` prints for these places.
fn printed_for(grammar: &[u8], heard: &[u32], node_limit: u8) -> Vec<u8> {
    printed(read(grammar).and_then(|grammar| listing(&grammar, heard, node_limit as u64, EFFORT_LIMIT)))
}

fn main() -> io::Result<()> {
    for (path, contents) in EXAMPLES.iter().flat_map(files) {
        fs::create_dir_all(path.parent().expect("a file is in a folder"))?;
        fs::write(path, contents)?;
    }
    Ok(())
}

#[cfg(test)]
mod tests {
    use super::*;

    #[test]
    fn the_files_are_there_as_written() {
        for (path, contents) in EXAMPLES.iter().flat_map(files) {
            let held = fs::read(&path).unwrap_or_else(|error| panic!("{}: {error}", path.display()));
            assert!(held == contents, "{} is not what examples_gen writes", path.display());
        }
    }

    /// What the README of examples/attachment says of its two analyses.
    #[test]
    fn the_readings_are_in_the_order_of_the_listing() {
        let readme = fs::read_to_string(Path::new(env!("CARGO_MANIFEST_DIR")).join("../../examples/attachment/README")).unwrap();
        let after = |mark: &str| readme.split_once(mark).unwrap_or_else(|| panic!("{mark}")).1;
        let to_the_np = after("NP attachment").split_once("VP attachment").unwrap().0;
        assert!(to_the_np.contains("[NP [NP [D the] [N man]] [PP [P with] [NP [D the] [N telescope]]]]"));
        let to_the_vp = after("VP attachment");
        assert!(to_the_vp.contains("[VP [VP [V saw] [NP [D the] [N man]]] [PP [P with] [NP [D the] [N telescope]]]]"));
    }

    /// The rules of a made grammar, with these names, are those that the reference makes with its own, in whatever order.
    #[test]
    fn made_categories_have_their_features() {
        let written = WrittenLexicon::new(QUESTION);
        let start = written.category("C");
        let by_reference = make(&written.bytes, written.word_count(), start).unwrap();
        let held = fs::read(Path::new(env!("CARGO_MANIFEST_DIR")).join("../../examples/question/grammar")).unwrap();
        let named_rules = |file: &[u8]| {
            let named = Named::new(file, made_categories(&written, start, file), written.words.clone());
            let mut rules: Vec<String> = read(file).unwrap().rules.iter().map(|rule| named.rule(rule)).collect();
            rules.sort();
            rules
        };
        let rules = named_rules(&held);
        assert_eq!(rules, named_rules(&by_reference));
        for rule in ["<1, D -wh> <- 3 (who)", "<1, =V +wh Q> <- empty", "<0, Q>(xy) <- <0, +wh Q, -wh>(y,x)", "start(x) <- <0, C>(x)"] {
            assert!(rules.iter().any(|other| other == rule), "{rule}");
        }
    }
}
