//! Paper 6 of document 02, "Minimalist lexicons": grammars worked out by hand, each scheme, each way of being left out, each part of 30,
//! the places of 10, the limits of 31, 23, and derivations counted by hand and beside the counts of the made grammars.

use reference::file::read;
use reference::grammar::{Grammar, Variable};
use reference::lexicon::{read_lexicon, Feature, Lexicon};
use reference::lexicon_notation::WrittenLexicon;
use reference::made::{named_grammar, Excess, Name, NamedRule};
use reference::minimalist::derivations;
use reference::notation::grammar_file;
use reference::renaming::renaming;
use reference::samples::{full_lexicon, KNOWS, LEXICONS, QUESTION};
use reference::schemes::{Instance, Tuple};
use reference::sentence::single_words;
use reference::{words, Answer, Calls, Reference, Refusal};

fn refused(number: u8, place: usize) -> Answer {
    Answer::Refused(Refusal::grammar(number, place))
}

/// What the call answers, with an output that has room for every file; a refusal changes nothing, and nothing after the file is changed.
fn answer_to(lexicon: &[u8], words: u32, start: u32) -> Result<Vec<u8>, Answer> {
    let mut out = vec![7; 14 * 512 + 3];
    match Reference.make_grammar(lexicon, words, start, &mut out) {
        Answer::Accepted(length) => {
            assert_eq!(out[length as usize..], vec![7; out.len() - length as usize]);
            out.truncate(length as usize);
            Ok(out)
        }
        answer => {
            assert_eq!(out, vec![7; 14 * 512 + 3]);
            Err(answer)
        }
    }
}

fn made(text: &str, start: &str) -> Grammar {
    let written = WrittenLexicon::new(text);
    let file = answer_to(&written.bytes, written.word_count(), written.category(start)).expect("a lexicon");
    read(&file).expect("the reader takes a made grammar")
}

/// The lexicon has this grammar, whatever the numbers of categories and rules, and no other start.
fn makes(text: &str, grammar: &str) {
    let made = made(text, "c");
    let mut expected = read(&grammar_file(grammar)).unwrap();
    expected.words = made.words;
    assert!(renaming(&made, &expected).is_some(), "{text}\nmakes\n{made:?}\nand not\n{grammar}");
    assert_eq!(made.words, WrittenLexicon::new(text).words.len());
}

#[test]
fn an_entry_alone() {
    makes("a :: c", "S(x) <- C(x)\nC <- 0");
    makes("empty :: c\na :: c", "S(x) <- C(x)\nC <- empty\nC <- 0");
}

/// The first scheme: to the right of an entry.
#[test]
fn first_scheme() {
    makes("a :: d\nb :: =d c", "S(x) <- C(x)\nC(xy) <- B(x) D(y)\nD <- 0\nB <- 1");
    // the selected one has moving chains
    makes(
        "a :: e -w\nb :: =e d\nf :: =d +w c",
        "S(x) <- C(x)\nE <- 0\nB <- 1\nF <- 2\nD(x,y) <- B(x) E(y)\nM(xy,z) <- F(x) D(y,z)\nC(yx) <- M(x,y)",
    );
}

/// The second scheme: to the left of what is no entry. Moving chains of the selecting one come first.
#[test]
fn second_scheme() {
    makes("a :: d\nb :: =d =d c", "S(x) <- C(x)\nD <- 0\nB <- 1\nE(xy) <- B(x) D(y)\nC(yx) <- E(x) D(y)");
    makes(
        "a :: e -w\nb :: =e d\nf :: h -v\ng :: =h =d +w +v c",
        "S(x) <- C(x)
         E <- 0
         B <- 1
         H <- 2
         G <- 3
         D(x,y) <- B(x) E(y)
         I(x,y) <- G(x) H(y)
         J(zx,y,w) <- I(x,y) D(z,w)
         K(zx,y) <- J(x,y,z)
         C(yx) <- K(x,y)",
    );
}

/// The third scheme, with moving chains on both sides: those of the selecting one, the selected one, and those that it has. The fourth.
#[test]
fn third_and_fourth_scheme() {
    makes("a :: d -w\nb :: =d +w c", "S(x) <- C(x)\nD <- 0\nB <- 1\nM(x,y) <- B(x) D(y)\nC(yx) <- M(x,y)");
    makes(
        "a :: d -v\nb :: =d e -w\nf :: h -u\ng :: =h =e +u +w +v c",
        "S(x) <- C(x)
         A <- 0
         B <- 1
         F <- 2
         G <- 3
         E(x,y) <- B(x) A(y)
         I(x,y) <- G(x) F(y)
         J(x,y,z,w) <- I(x,y) E(z,w)
         K(yx,z,w) <- J(x,y,z,w)
         L(yx,z) <- K(x,y,z)
         C(yx) <- L(x,y)",
    );
}

/// The fifth scheme: every string keeps its place.
#[test]
fn fifth_scheme() {
    makes("a :: d -w -v\nb :: =d +w +v c", "S(x) <- C(x)\nD <- 0\nB <- 1\nM(x,y) <- B(x) D(y)\nN(x,y) <- M(x,y)\nC(yx) <- N(x,y)");
    makes(
        "a :: d -w -v\nf :: h -u\nb :: =h =d +w +u +v c",
        "S(x) <- C(x)
         A <- 0
         F <- 1
         B <- 2
         G(x,y) <- B(x) F(y)
         Q(x,y,z) <- G(x,y) A(z)
         P(x,y,z) <- Q(x,y,z)
         R(yx,z) <- P(x,y,z)
         C(yx) <- R(x,y)",
    );
}

/// The lexical form of the wanted category alone, the derived one alone, both, and neither: one with a moving chain is none.
#[test]
fn start_forms() {
    makes("a :: c\nb :: =c d", "S(x) <- C(x)\nC <- 0\nB <- 1\nD(xy) <- B(x) C(y)");
    makes("a :: d\nb :: =d c", "S(x) <- C(x)\nC(xy) <- B(x) D(y)\nD <- 0\nB <- 1");
    makes("a :: c\nb :: =c c", "S(x) <- C(x)\nS(x) <- E(x)\nC <- 0\nB <- 1\nE(xy) <- B(x) C(y)\nE(xy) <- B(x) E(y)");
    for text in ["a :: d\nb :: =c d", "a :: d -w\nb :: =d c", "a :: c -w", "a :: =c c"] {
        let written = WrittenLexicon::new(text);
        assert_eq!(answer_to(&written.bytes, 2, written.category("c")), Err(refused(31, 0)), "{text}");
    }
    // with another start there are as many rules
    assert_eq!(made("a :: c\nb :: =c d", "c").rules.len(), made("a :: c\nb :: =c d", "d").rules.len());
}

/// A chain without features: of a head that was merged, and of one that moved something.
#[test]
fn left_out_without_features() {
    makes("a :: d\nb :: =d c\ne :: =d", "S(x) <- C(x)\nC(xy) <- B(x) D(y)\nD <- 0\nB <- 1\nE <- 2");
    makes(
        "a :: d -w\nb :: =d +w c\ne :: =d +w",
        "S(x) <- C(x)\nD <- 0\nB <- 1\nE <- 2\nM(x,y) <- B(x) D(y)\nC(yx) <- M(x,y)\nN(x,y) <- E(x) D(y)",
    );
}

/// A moving chain that begins with a category, a selector or a licensor: once merged, and once moved.
#[test]
fn left_out_without_licensee() {
    for features in ["d d", "d =d", "d +w", "d c -w"] {
        makes(&format!("a :: d\nb :: =d c\ne :: {features}"), "S(x) <- C(x)\nC(xy) <- B(x) D(y)\nD <- 0\nB <- 1\nE <- 2");
    }
    for features in ["h -w d", "h -w =d", "h -w +w", "h -w c -w"] {
        makes(&format!("a :: c\nb :: =h +w c\ne :: {features}"), "S(x) <- C(x)\nC <- 0\nB <- 1\nE <- 2\nM(x,y) <- B(x) E(y)");
    }
}

/// Two moving chains that begin with the same licensee: by the second scheme, by the third on either side, and by the fifth.
#[test]
fn left_out_with_the_same_licensee() {
    makes("z :: c\na :: d -w\nb :: =d =d +w c", "S(x) <- C(x)\nC <- 0\nD <- 1\nB <- 2\nM(x,y) <- B(x) D(y)");
    makes(
        "z :: c\na :: d -w\nb :: =d e\nf :: =e =e c",
        "S(x) <- C(x)\nC <- 0\nA <- 1\nB <- 2\nF <- 3\nE(x,y) <- B(x) A(y)\nM(xy,z) <- F(x) E(y,z)",
    );
    makes("z :: c\na :: d -w\nb :: =d d -w", "S(x) <- C(x)\nC <- 0\nA <- 1\nB <- 2\nM(x,y) <- B(x) A(y)");
    makes(
        "z :: c\na :: d -w -v\nb :: h -v\nf :: =h =d +w c",
        "S(x) <- C(x)\nC <- 0\nA <- 1\nB <- 2\nF <- 3\nG(x,y) <- F(x) B(y)\nM(x,y,z) <- G(x,y) A(z)",
    );
}

/// Moving chains in another order are another category, and nothing is cleared: the categories that end nowhere stay.
#[test]
fn orders_of_moving_chains() {
    makes(
        "z :: c\na :: d -w\nb :: d -v\nf :: =d =d e",
        "S(x) <- C(x)
         C <- 0
         A <- 1
         B <- 2
         F <- 3
         G(x,y) <- F(x) A(y)
         H(x,y) <- F(x) B(y)
         I(x,y,z) <- G(x,y) B(z)
         J(x,y,z) <- H(x,y) A(z)",
    );
}

/// An entry's category is never left out, and an entry moves nothing.
#[test]
fn entries_of_every_kind() {
    makes("z :: c\na :: -w\nb :: +w c\nd :: =c\ne :: c -w -w -w -w -w", "S(x) <- C(x)\nC <- 0\nA <- 1\nB <- 2\nD <- 3\nE <- 4");
    // one feature sequence, several words
    makes(
        "a :: c\nb :: c\nempty :: c\na :: =c c",
        "S(x) <- C(x)\nS(x) <- E(x)\nC <- 0\nC <- 1\nC <- empty\nB <- 0\nE(xy) <- B(x) C(y)\nE(xy) <- B(x) E(y)",
    );
}

/// What each feature byte stands for: a category, its selector, a licensor, its licensee, each with every number.
#[test]
fn feature_bytes() {
    for byte in 1..=15 {
        let other = byte % 15 + 1;
        let right = answer_to(&[0, 0, byte, 0, 0, 0, 0, 0, 0, 0, 16 + byte, other, 0, 0, 0, 0], 1, other as u32).unwrap();
        let expected = grammar_file("S(x) <- C(x)\nC(xy) <- B(x) D(y)\nD <- 0\nB <- 0");
        assert!(renaming(&read(&right).unwrap(), &read(&expected).unwrap()).is_some());
        assert_eq!(answer_to(&[0, 0, byte, 0, 0, 0, 0, 0, 0, 0, 16 + other, other, 0, 0, 0, 0], 1, other as u32), Err(refused(31, 0)));
    }
    for licensor in 33..=35 {
        let bytes = |licensee: u8| [0, 0, 1, licensee, 0, 0, 0, 0, 0, 0, 17, licensor, 2, 0, 0, 0];
        let right = answer_to(&bytes(licensor + 16), 1, 2).unwrap();
        let expected = grammar_file("S(x) <- C(x)\nD <- 0\nB <- 0\nM(x,y) <- B(x) D(y)\nC(yx) <- M(x,y)");
        assert!(renaming(&read(&right).unwrap(), &read(&expected).unwrap()).is_some());
        assert_eq!(answer_to(&bytes(49 + (licensor - 32) % 3), 1, 2), Err(refused(31, 0)));
    }
}

/// The rule that section 3.2 of the source writes out, and the numbers of Example 2, counted by hand: seven entries with six feature rows,
/// and <0, =D V>, <0, V>, <0, C>, <0, +wh C> without and with a moving -wh.
#[test]
fn the_example_of_the_source() {
    let written = WrittenLexicon::new(KNOWS);
    let lexicon = read_lexicon(&written.bytes, 5, written.category("C")).unwrap();
    let grammar = named_grammar(&lexicon).unwrap();
    let (c, v) = (lexicon.start, Feature::Category(written.category("V") as u8));
    let select_v = Feature::Selector(written.category("V") as u8);
    let derived = |feature: Feature| Tuple { lexical: false, chains: vec![vec![feature]] };
    let daughters = vec![Tuple::of_entry(&[select_v, c]), derived(v)];
    let string = |daughter| Variable { daughter, component: 0 };
    let components = vec![vec![string(0), string(1)]];
    let rule =
        |instance: &Instance| instance.category == derived(c) && instance.daughters == daughters && instance.components == components;
    assert_eq!(grammar.rules.iter().filter(|known| matches!(known, NamedRule::Instance(known) if rule(known))).count(), 1);
    assert_eq!(grammar.categories.len(), 1 + 6 + 8);
    assert!(grammar.categories.contains(&Name::NewStart));
}

fn right() -> Vec<u8> {
    // a :: d, b :: =d +w c, e :: d -w -v -w -v -w
    [[0, 0, 2, 0, 0, 0, 0, 0], [1, 0, 18, 33, 1, 0, 0, 0], [2, 0, 2, 49, 50, 49, 50, 49], [3, 0, 1, 0, 0, 0, 0, 0]].concat()
}

#[test]
fn refusal_30_lengths_and_numbers() {
    assert!(answer_to(&right(), 4, 1).is_ok());
    for length in (0..=264).filter(|length| length % 8 != 0).chain([0, 264, 272, 8 * 256, 8 * 288]) {
        let bytes: Vec<u8> = right().into_iter().cycle().take(length).collect();
        assert_eq!(answer_to(&bytes, 4, 1), Err(refused(30, 0)), "{length}");
    }
    let many = |entries: u16| (0..entries).flat_map(|word| [word as u8, 0, 1, 0, 0, 0, 0, 0]).collect::<Vec<u8>>();
    assert_eq!(answer_to(&many(32), 4096, 1).map(|file| read(&file).unwrap().rules.len()), Ok(33));
    assert_eq!(answer_to(&many(33), 4096, 1), Err(refused(30, 0)));
    assert!(answer_to(&many(1), 1, 1).is_ok());
    for words in [0, 4097, 65_536, 65_537, 1 << 24 | 4, u32::MAX] {
        assert_eq!(answer_to(&many(1), words, 1), Err(refused(30, 0)), "{words}");
    }
    for start in [0, 16, 17, 33, 255, 256, 257, 65_537, u32::MAX] {
        assert_eq!(answer_to(&many(1), 1, start), Err(refused(30, 0)), "{start}");
    }
    for start in 2..=15 {
        assert_eq!(answer_to(&many(1), 1, start), Err(refused(31, 0)), "{start}");
    }
}

#[test]
fn refusal_30_words() {
    let with_word = |word: u16| answer_to(&[&word.to_le_bytes()[..], &[1, 0, 0, 0, 0, 0]].concat(), 300, 1).err();
    for word in [0, 1, 255, 256, 299, 65_535] {
        assert_eq!(with_word(word), None, "{word}");
    }
    for word in [300, 301, 512, 4095, 4096, 65_534] {
        assert_eq!(with_word(word), Some(refused(30, 0)), "{word}");
    }
    assert!(answer_to(&[255, 15, 1, 0, 0, 0, 0, 0], 4096, 1).is_ok());
    assert_eq!(answer_to(&[255, 15, 1, 0, 0, 0, 0, 0], 4095, 1), Err(refused(30, 0)));
    assert!(answer_to(&[255, 255, 1, 0, 0, 0, 0, 0], 1, 1).is_ok());
}

#[test]
fn refusal_30_features() {
    let is_feature =
        |byte: u8| (1..=15).contains(&byte) || (17..=31).contains(&byte) || (33..=35).contains(&byte) || (49..=51).contains(&byte);
    for byte in 0..=255 {
        for place in 0..6 {
            // a whole entry, and one that ends before this byte
            let mut whole = [0, 0, 1, 17, 33, 49, 1, 17];
            whole[2 + place] = byte;
            let after_0 = byte == 0 && place < 5;
            let expected = if after_0 || byte == 0 && place == 0 || byte != 0 && !is_feature(byte) { Some(refused(30, 0)) } else { None };
            let lexicon = [&[0, 0, 1, 0, 0, 0, 0, 0], &whole[..]].concat();
            let outcome = answer_to(&lexicon, 1, 1).err();
            assert_eq!(outcome, expected, "{byte} at {place}");
            let mut short = [0, 0, 1, 17, 33, 49, 1, 17];
            short[2 + place..].fill(0);
            if place < 5 {
                short[3 + place] = byte;
                let lexicon = [&[0, 0, 2, 0, 0, 0, 0, 0, 0, 0, 1, 1, 0, 0, 0, 0], &short[..]].concat();
                let expected = if byte != 0 || place == 0 { Some(refused(30, 0)) } else { None };
                assert_eq!(answer_to(&lexicon, 1, 2).err(), expected, "{byte} after the 0 at {place}");
            }
        }
    }
}

/// The first entry that equals an earlier one, by its own number.
#[test]
fn refusal_10() {
    let entry = |word: u8, feature: u8| [word, 0, feature, 0, 0, 0, 0, 0];
    let answer = |entries: &[[u8; 8]]| answer_to(&entries.concat(), 5, 1).err();
    assert_eq!(answer(&[entry(0, 1), entry(1, 1), entry(0, 2), entry(1, 2)]), None);
    assert_eq!(answer(&[entry(0, 1), entry(1, 1), entry(2, 1), entry(1, 1), entry(0, 1)]), Some(refused(10, 3)));
    assert_eq!(answer(&[entry(0, 1), entry(0, 1)]), Some(refused(10, 1)));
    assert_eq!(answer(&[[255, 255, 1, 0, 0, 0, 0, 0], entry(0, 1), [255, 255, 1, 0, 0, 0, 0, 0]]), Some(refused(10, 2)));
    let all: Vec<[u8; 8]> = (0..31).map(|word| entry(word % 4, 1 + word / 4)).chain([entry(0, 1)]).collect();
    assert_eq!(answer(&all), Some(refused(10, 31)));
    // the last of six features, and the upper byte of the word
    let long = |last: u8| [0, 0, 1, 49, 50, 51, 49, last];
    assert_eq!(answer(&[entry(0, 1), long(50), long(51)]), None);
    assert_eq!(answer(&[entry(0, 1), long(50), long(50)]), Some(refused(10, 2)));
    assert_eq!(answer_to(&[[0, 0, 1, 0, 0, 0, 0, 0], [0, 1, 1, 0, 0, 0, 0, 0]].concat(), 257, 1).err(), None);
}

/// 30 before 10, 10 before 31, 31 before 23.
#[test]
fn order_of_refusals() {
    let (one, wrong) = ([0, 0, 1, 0, 0, 0, 0, 0], [0, 0, 0, 0, 0, 0, 0, 0]);
    assert_eq!(answer_to(&[one, one, wrong].concat(), 1, 1), Err(refused(30, 0)));
    assert_eq!(answer_to(&[one, one].concat(), 0, 1), Err(refused(30, 0)));
    assert_eq!(answer_to(&[one, one].concat(), 1, 16), Err(refused(30, 0)));
    assert_eq!(answer_to(&[one, one].concat(), 1, 2), Err(refused(10, 1)));
    assert_eq!(Reference.make_grammar(&[one, one].concat(), 1, 2, &mut []), refused(10, 1));
    assert_eq!(Reference.make_grammar(&one, 1, 2, &mut []), refused(31, 0));
    assert_eq!(Reference.make_grammar(&one, 1, 1, &mut []), Answer::Refused(Refusal::desk(23)));
}

/// 23 by one byte: a file of two blocks, and one of 14.
#[test]
fn refusal_23() {
    for (lexicon, length) in [(vec![0, 0, 1, 0, 0, 0, 0, 0], 1024), (full_lexicon(17, 3), 14 * 512)] {
        for room in [0, 1, 512, length - 1] {
            let mut out = vec![7; room];
            assert_eq!(Reference.make_grammar(&lexicon, 64, 1, &mut out), Answer::Refused(Refusal::desk(23)), "{room}");
            assert_eq!(out, vec![7; room]);
        }
        let mut out = vec![7; length];
        assert_eq!(Reference.make_grammar(&lexicon, 64, 1, &mut out), Answer::Accepted(length as u32));
        assert!(read(&out).is_ok());
    }
}

fn size(lexicon: &[u8]) -> Result<(usize, usize), Excess> {
    let lexicon = read_lexicon(lexicon, 64, 1).unwrap();
    named_grammar(&lexicon).map(|grammar| (grammar.categories.len(), grammar.rules.len()))
}

/// 64 categories and 256 rules are accepted, and one more of either is not; nor is the same lexicon with another start.
#[test]
fn refusal_31_limits() {
    assert_eq!(size(&full_lexicon(0, 0)), Ok((61, 236)));
    assert_eq!(size(&full_lexicon(17, 3)), Ok((64, 256)));
    assert_eq!(size(&full_lexicon(18, 3)), Err(Excess::Rules));
    assert_eq!(size(&full_lexicon(16, 4)), Err(Excess::Categories));
    assert!(answer_to(&full_lexicon(17, 3), 64, 1).is_ok());
    for (words, others) in [(18, 3), (16, 4), (21, 0), (0, 4)] {
        assert_eq!(answer_to(&full_lexicon(words, others), 64, 1), Err(refused(31, 0)));
    }
    assert!(answer_to(&full_lexicon(20, 0), 64, 1).is_ok());
    assert!(answer_to(&full_lexicon(17, 3), 64, 6).is_ok());
    assert_eq!(answer_to(&full_lexicon(17, 3), 64, 7), Err(refused(31, 0)));
    assert_eq!(answer_to(&full_lexicon(17, 3), 64, 15), Err(refused(31, 0)));
}

/// Few rules: 1, ten entries =1 =1 =1 =1 =1 and a category, with five derived categories each, and =1 12 with one.
#[test]
fn refusal_31_categories_alone() {
    let long = |category: u8| [0, 0, 17, 17, 17, 17, 17, category];
    let mut lexicon = [0, 0, 1, 0, 0, 0, 0, 0].to_vec();
    lexicon.extend((2..12).flat_map(long));
    lexicon.extend([0, 0, 17, 12, 0, 0, 0, 0]);
    assert_eq!(size(&lexicon), Ok((64, 1 + 10 * 6 + 2 + 1)));
    lexicon.extend([0, 0, 13, 0, 0, 0, 0, 0]);
    assert_eq!(size(&lexicon), Err(Excess::Categories));
}

fn lexicon_of(text: &str, start: &str) -> (Lexicon, Vec<u8>) {
    let written = WrittenLexicon::new(text);
    let (words, start) = (written.word_count(), written.category(start));
    (read_lexicon(&written.bytes, words, start).unwrap(), answer_to(&written.bytes, words, start).unwrap())
}

const ENOUGH: usize = 3_000_000;

/// The derivations, and what the made grammar counts.
fn both_counts((lexicon, file): &(Lexicon, Vec<u8>), sentence: &[u32], node_limit: usize) -> (Option<u64>, Option<u64>) {
    let counted = match Reference.count(file, sentence, node_limit as u64, 20_000) {
        Answer::Counted { count, .. } => Some(count as u64),
        Answer::Refused(refusal) if refusal == Refusal::desk(25) => None,
        answer => panic!("{answer:?}"),
    };
    (derivations(lexicon, sentence, node_limit, ENOUGH), counted)
}

fn counts(text: &str, start: &str, sentence: &[u32], node_limit: usize) -> u64 {
    let (derived, counted) = both_counts(&lexicon_of(text, start), sentence, node_limit);
    assert_eq!(derived, counted, "{text} {sentence:?} {node_limit}");
    derived.unwrap()
}

#[test]
fn derivations_by_hand() {
    // an entry alone is one node, and N = 2 is the least that suffices
    assert_eq!([1, 2, 3].map(|n| counts("a :: c", "c", &single_words(&[0]), n)), [0, 1, 1]);
    // two entries and a merge
    assert_eq!([3, 4, 5].map(|n| counts("a :: d\nb :: =d c", "c", &single_words(&[1, 0]), n)), [0, 1, 1]);
    assert_eq!(counts("a :: d\nb :: =d c", "c", &single_words(&[0, 1]), 9), 0);
    // two entries, a merge and a move
    assert_eq!([4, 5, 6].map(|n| counts("a :: d -w\nb :: =d +w c", "c", &single_words(&[0, 1]), n)), [0, 1, 1]);
    assert_eq!(counts("a :: d -w\nb :: =d +w c", "c", &single_words(&[1, 0]), 9), 0);
    // and a second move
    assert_eq!([5, 6, 7].map(|n| counts("a :: d -w -v\nb :: =d +w +v c", "c", &single_words(&[0, 1]), n)), [0, 1, 1]);
    // five entries and four merges, in two ways
    let branching = |n: usize| counts("a :: c\nb :: =c =c c", "c", &single_words(&[0, 1, 0, 1, 0]), n);
    assert_eq!([9, 10, 11].map(branching), [0, 2, 2]);
    // one, three or five nodes
    let silent = |n: usize| counts("a :: c\nempty :: =c c", "c", &single_words(&[0]), n);
    assert_eq!([1, 2, 3, 4, 5, 6].map(silent), [0, 1, 1, 2, 2, 3]);
    // unclear places
    assert_eq!(counts("a :: c\nb :: c", "c", &[words(0, 1)], 2), 2);
    assert_eq!(counts("a :: d\nb :: =d c\ne :: d", "c", &[words(0, 2), words(0, 2)], 4), 2);
}

/// The derivation that section 3.1 of the source shows: seven entries, six merges and a move. John knows who Mary likes is another.
#[test]
fn the_derivation_of_the_source() {
    let lexicon = lexicon_of(KNOWS, "C");
    // Mary knows who John likes
    let sentence = single_words(&[0, 4, 2, 1, 3]);
    assert_eq!(derivations(&lexicon.0, &sentence, 14, ENOUGH), Some(0));
    assert_eq!(derivations(&lexicon.0, &sentence, 15, ENOUGH), Some(1));
    assert_eq!(both_counts(&lexicon, &sentence, 15), (Some(1), Some(1)));
    // Mary or John knows who Mary or John likes
    let unclear = [words(0, 1), words(4, 4), words(2, 2), words(0, 1), words(3, 3)];
    assert_eq!(derivations(&lexicon.0, &unclear, 15, ENOUGH), Some(4));
    // who likes: as if asked of the subject, and of the object of Mary likes
    assert_eq!(counts(KNOWS, "C", &single_words(&[2, 3, 0]), 9), 1);
    assert_eq!(counts(KNOWS, "C", &single_words(&[2, 0, 3]), 9), 1);
    assert_eq!(counts(KNOWS, "C", &single_words(&[2, 3, 2]), 11), 0);
}

#[test]
fn questions() {
    let written = WrittenLexicon::new(QUESTION);
    let sentence = |text: &str| -> Vec<u32> {
        let number = |word: &str| written.words.iter().position(|known| known == word).unwrap() as u16;
        single_words(&text.split(' ').map(number).collect::<Vec<u16>>())
    };
    for (text, nodes) in [("Mary likes John", 7), ("who does Mary like", 8), ("Mary knows who John likes", 14)] {
        assert_eq!(counts(QUESTION, "C", &sentence(text), nodes), 0, "{text}");
        assert_eq!(counts(QUESTION, "C", &sentence(text), nodes + 1), 1, "{text}");
    }
    for text in ["Mary like John", "does Mary like John", "who Mary likes", "Mary knows John likes", "who does Mary likes"] {
        assert_eq!(counts(QUESTION, "C", &sentence(text), 10), 0, "{text}");
    }
}

/// All sentences of at most this many words.
fn sentences(number: u16, most: usize) -> Vec<Vec<u16>> {
    let mut all = vec![vec![]];
    let mut from = 0;
    for _ in 0..most {
        let to = all.len();
        for i in from..to {
            all.extend((0..number).map(|word| [&all[i][..], &[word]].concat()).collect::<Vec<Vec<u16>>>());
        }
        from = to;
    }
    all
}

/// The count for every short sentence is the number of derivations, clear and unclear.
#[test]
fn derivations_and_counts() {
    for text in LEXICONS {
        let (mut compared, mut found) = (0, 0);
        let lexicon = lexicon_of(text, "c");
        let number = lexicon.0.words;
        let mut given: Vec<Vec<u32>> = sentences(number, 4).iter().map(|words| single_words(words)).collect();
        given.extend((1..5).map(|length| vec![words(0, number - 1); length]));
        for sentence in given {
            for node_limit in [1, 2, 4, 6, 8, 10, 12, 14] {
                if let (Some(derived), Some(counted)) = both_counts(&lexicon, &sentence, node_limit) {
                    assert_eq!(derived, counted, "{text} {sentence:?} {node_limit}");
                    compared += 1;
                    found += (derived > 0) as usize;
                }
            }
        }
        assert!(compared > 150 && found > 4, "{text} {compared} {found}");
    }
}

/// The count without a grammar gives up where it takes too long.
#[test]
fn derivations_that_take_long() {
    let (lexicon, _) = lexicon_of("a :: c\nempty :: =c c\nempty :: =c =c c", "c");
    assert_eq!(derivations(&lexicon, &single_words(&[0]), 12, 20), None);
    assert!(derivations(&lexicon, &single_words(&[0]), 12, ENOUGH).is_some());
}
