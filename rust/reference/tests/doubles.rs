//! Paper 4 of document 02, "One rule with its daughters shuffled": rules that equal an earlier one in another order of their daughters, and
//! rules that nearly do.

use reference::file::{check, setting_of, BLOCK};
use reference::grammar::{Body, Rule};
use reference::notation::{grammar_file, parts, put_weights};
use reference::record::{read_records, Record, Setting, RECORD};
use reference::samples::PAIR;
use reference::sentence::single_words;
use reference::tree::joined;
use reference::writer::file_of;
use reference::{Answer, Calls, Heading, Reference, Refusal, TreeCalls};

fn refused(number: u8, place: usize) -> Answer {
    Answer::Refused(Refusal::grammar(number, place))
}

/// What the reader answers. The writer gives that file, or the same refusal.
fn read_and_written(heading: &Heading, records: &[u8]) -> Answer {
    let file = file_of(heading, records);
    let answer = Reference.read_grammar(&file);
    let mut out = vec![7; file.len()];
    let written = Reference.write_grammar(heading, records, &mut out);
    match answer {
        Answer::Refused(_) => assert_eq!((written, out), (answer, vec![7; file.len()])),
        _ => assert_eq!((written, out), (Answer::Accepted(file.len() as u32), file)),
    }
    answer
}

fn answer_to(text: &str) -> Answer {
    let (heading, records) = parts(text);
    read_and_written(&heading, &records)
}

/// The answer to the text with these weights of its rules in turn.
fn weighed_answer_to(text: &str, weights: &[u8]) -> Answer {
    let (heading, mut records) = parts(text);
    put_weights(&mut records, weights.iter().copied());
    read_and_written(&heading, &records)
}

/// Every order of so many things.
fn orders(things: usize) -> Vec<Vec<usize>> {
    if things == 0 {
        return vec![vec![]];
    }
    let shorter = orders(things - 1);
    shorter.iter().flat_map(|order| (0..things).map(move |at| [&order[..at], &[things - 1], &order[at..]].concat())).collect()
}

#[test]
fn every_order_is_made() {
    assert_eq!(orders(2), [[1, 0], [0, 1]]);
    assert_eq!(orders(3), [[2, 1, 0], [1, 2, 0], [1, 0, 2], [2, 0, 1], [0, 2, 1], [0, 1, 2]]);
}

/// The rule with its daughters in every order, in lines. The letters stay with their daughters, so the variables are renumbered to match.
fn in_every_order(left: &str, daughters: &[&str]) -> Vec<String> {
    let line = |order: &Vec<usize>| format!("{left} <- {}\n", order.iter().map(|&d| daughters[d]).collect::<Vec<_>>().join(" "));
    orders(daughters.len()).iter().map(line).collect()
}

/// Every order of the daughters after every other one.
fn doubles_in_every_order(left: &str, daughters: &[&str]) {
    let lines = in_every_order(left, daughters);
    for (earlier, later) in lines.iter().flat_map(|earlier| lines.iter().map(move |later| (earlier, later))) {
        let text = format!("S <- 0\n{earlier}{later}");
        assert_eq!(answer_to(&text), refused(10, 2), "{text}");
    }
}

#[test]
fn two_daughters_exchanged() {
    assert_eq!(answer_to("S(xy) <- S(x) S(y)\nS(yx) <- S(x) S(y)\nS <- 0"), refused(10, 1));
    assert_eq!(answer_to("S(yx) <- S(x) S(y)\nS(xy) <- S(x) S(y)\nS <- 0"), refused(10, 1));
    assert_eq!(answer_to("S(xy) <- A(x) B(y)\nS(xy) <- B(y) A(x)\nA <- 0\nB <- 0"), refused(10, 1));
    assert_eq!(answer_to("S <- 0\nP(xz,yw) <- P(x,y) P(z,w)\nP(zx,wy) <- P(x,y) P(z,w)"), refused(10, 2));
    // the daughters are alike, so that exchanging them exchanges the components
    assert_eq!(answer_to("S <- 0\nP(x,y) <- A(x) A(y)\nP(y,x) <- A(x) A(y)"), refused(10, 2));
    doubles_in_every_order("P(,bca)", &["A(a,b)", "B(c)"]);
    doubles_in_every_order("P(ad,cb)", &["P(a,b)", "P(c,d)"]);
}

#[test]
fn three_daughters_in_every_order() {
    // three categories, of different dimensions and of one
    doubles_in_every_order("T(fa,ec,db)", &["A(a,b)", "B(c)", "C(d,e,f)"]);
    doubles_in_every_order("T(b,,ac)", &["A(a)", "B(b)", "C(c)"]);
    doubles_in_every_order("S(cbdaef)", &["A(a,b)", "B(c,d)", "C(e,f)"]);
    // two alike
    doubles_in_every_order("S(acdbfe)", &["A(a,b)", "A(c,d)", "B(e,f)"]);
    doubles_in_every_order("S(ebacd)", &["A(a,b)", "B(c)", "A(d,e)"]);
    doubles_in_every_order("T(,bgd,caef)", &["S(a)", "A(b,c,d)", "A(e,f,g)"]);
    // three alike
    doubles_in_every_order("S(bca)", &["S(a)", "S(b)", "S(c)"]);
    doubles_in_every_order("T(f,adb,ce)", &["A(a,b)", "A(c,d)", "A(e,f)"]);
    doubles_in_every_order("S(lgajbkcidhef)", &["A(a,b,c,d)", "A(e,f,g,h)", "A(i,j,k,l)"]);
}

/// Daughters A, B and C of dimensions 1 to 3, their order gone round by one and by two, each worked out byte by byte.
#[test]
fn both_three_cycles() {
    let (heading, _) = parts("S <- 0\nX(a) <- A(a) B(b,c) C(d,e,f)\n");
    assert_eq!(heading.dimensions[..5], [1, 1, 1, 2, 3]);
    let [a, b, c] = [2, 3, 4];
    let forms = [
        [0, 3, a, b, c, 0, 0, 6, 0, 0, 0, 9, 0, 5, 8, 4, 10, 0, 0, 0, 0, 0, 0, 0],
        [0, 3, b, c, a, 0, 0, 6, 0, 0, 0, 5, 8, 1, 4, 0, 6, 0, 0, 0, 0, 0, 0, 0],
        [0, 3, c, a, b, 0, 0, 6, 0, 0, 0, 1, 4, 9, 0, 8, 2, 0, 0, 0, 0, 0, 0, 0],
    ];
    for (earlier, later) in forms.iter().flat_map(|earlier| forms.iter().map(move |later| (earlier, later))) {
        assert_eq!(read_and_written(&heading, &[*earlier, *later].concat()), refused(10, 1));
    }
}

/// Daughter bytes 1 0 0 and 0 1 0, of which the last is unused.
#[test]
fn category_0_beside_an_unused_daughter() {
    assert_eq!(answer_to("S <- 0\nA <- 0\nS(xy) <- A(x) S(y)\nS(xy) <- S(y) A(x)"), refused(10, 3));
    assert_eq!(answer_to("S <- 0\nA <- 0\nS(xy) <- S(x) A(y)\nS(xy) <- A(y) S(x)"), refused(10, 3));
    assert_eq!(answer_to("S <- 0\nS(xy) <- S(x) S(y)\nS(yx) <- S(x) S(y)"), refused(10, 2));
    // one, two and three daughters of category 0
    assert_eq!(answer_to("S <- 0\nS(x) <- S(x)\nS(xy) <- S(x) S(y)\nS(xyz) <- S(x) S(y) S(z)"), Answer::Accepted(4));
}

/// Variable bytes 0 4 and 4 0, 0 8 4 and so on, with zeros after them that are unused.
#[test]
fn variable_0_beside_unused_variables() {
    assert_eq!(answer_to("S <- 0\nS(xy) <- A(x) B(y)\nS(xy) <- B(y) A(x)"), refused(10, 2));
    assert_eq!(answer_to("S <- 0\nS(yx) <- A(x) B(y)\nS(yx) <- B(y) A(x)"), refused(10, 2));
    assert_eq!(answer_to("S <- 0\nP(,yx) <- A(x) B(y)\nP(,yx) <- B(y) A(x)"), refused(10, 2));
    doubles_in_every_order("S(xzy)", &["A(x)", "B(y)", "C(z)"]);
    doubles_in_every_order("Q(x,,yz,)", &["A(x)", "A(y)", "A(z)"]);
}

#[test]
fn weight_aside() {
    let text = "S(xyz) <- S(x) A(y) A(z)\nS(xyz) <- A(z) S(x) A(y)\nS <- 0\nA <- 0";
    for weights in [&[0, 0][..], &[0, 1], &[1, 0], &[255, 254], &[9, 9]] {
        assert_eq!(weighed_answer_to(text, weights), refused(10, 1));
    }
}

/// The later one of the two, whatever stands between them and wherever they stand among 256.
#[test]
fn place_is_that_of_the_later_rule() {
    let words = |from: usize, to: usize| (from..to).map(|word| format!("S <- {word}\n")).collect::<String>();
    let [rule, double] = ["S(xy) <- S(x) S(y)\n", "S(yx) <- S(x) S(y)\n"];
    for (first, second) in [(0, 1), (0, 20), (0, 21), (19, 22), (20, 21), (41, 200), (0, 255), (254, 255)] {
        let text = [&words(0, first), rule, &words(first, second - 1), double, &words(second - 1, 254)].concat();
        assert_eq!(answer_to(&text), refused(10, second));
    }
    // of three that are doubles of each other the second
    assert_eq!(answer_to(&[rule, "S <- 0\n", double, "S <- 1\n", rule].concat()), refused(10, 2));
    assert_eq!(answer_to(&[rule, "S <- 0\n", double, "S <- 0\n"].concat()), refused(10, 2));
    assert_eq!(answer_to(&[rule, "S <- 0\n", "S <- 0\n", double].concat()), refused(10, 2));
}

/// After 6 to 9 of that rule, and before those of the next and the rest of the last block; in the writer before 23.
#[test]
fn tested_where_10_was_tested() {
    let (heading, records) = parts("S(x) <- S(x)\nS(wyx) <- S(x) P(y,w)\nS(wyx) <- P(y,w) S(x)\nS <- 0");
    let with = |at: usize, byte: u8| {
        let mut records = records.clone();
        records[at] = byte;
        read_and_written(&heading, &records)
    };
    let later = 2 * RECORD;
    assert_eq!(with(later + 23, 5), refused(10, 2));
    assert_eq!(with(later, 9), refused(6, 2));
    assert_eq!(with(later + 3, 9), refused(6, 2));
    assert_eq!(with(later + 11, 0), refused(8, 2));
    assert_eq!(with(later + 7, 2), refused(8, 2));
    for unused in [4, 5, 6, 8, 9, 10, 14, 22] {
        assert_eq!(with(later + unused, 1), refused(9, 2));
        assert_eq!(with(RECORD + unused, 1), refused(9, 1));
    }
    assert_eq!(with(later + RECORD, 9), refused(10, 2));
    assert_eq!(with(later + RECORD + 22, 1), refused(10, 2));
    let mut file = file_of(&heading, &records);
    file[BLOCK + 507] = 1;
    let sum = check(&file[BLOCK..]);
    file[BLOCK + 508..].copy_from_slice(&sum.to_le_bytes());
    assert_eq!(Reference.read_grammar(&file), refused(10, 2));
    assert_eq!(Reference.write_grammar(&heading, &records, &mut []), refused(10, 2));
}

#[test]
fn near_misses() {
    let accepted = [
        // the own components exchanged, and nothing else
        "S <- 0\nP(x,y) <- A(x) B(y)\nP(y,x) <- A(x) B(y)",
        "S <- 0\nP(xz,yw) <- P(x,y) P(z,w)\nP(yw,xz) <- P(x,y) P(z,w)",
        // the daughters reordered and the variables not renumbered, renumbered alone, and renumbered by the other three-cycle
        "S(xy) <- A(x) B(y)\nS(xy) <- B(x) A(y)\nA <- 0\nB <- 0",
        "S(xy) <- A(x) B(y)\nS(yx) <- A(x) B(y)\nA <- 0\nB <- 0",
        "S(abc) <- A(a) B(b) C(c)\nS(abc) <- B(a) C(b) A(c)\nA <- 0",
        "S(abc) <- A(a) B(b) C(c)\nS(cab) <- B(b) C(c) A(a)\nA <- 0",
        // one daughter of another category
        "S(xy) <- A(x) B(y)\nS(xy) <- C(y) A(x)\nA <- 0",
        "S(xyz) <- A(x) A(y) B(z)\nS(zxy) <- B(z) B(x) A(y)\nA <- 0",
        // another category of the rule itself
        "S(xy) <- A(x) B(y)\nT(xy) <- B(y) A(x)\nA <- 0",
        // one component more, of the rule and of a daughter
        "S <- 0\nP(x,y) <- A(x) B(y)\nQ(x,y,) <- B(y) A(x)",
        "S <- 0\nS(xyz) <- P(x,y) A(z)\nS(xyzw) <- A(z) Q(x,y,w)",
        // one daughter more and one less
        "S(xy) <- S(x) S(y)\nS(yxz) <- S(x) S(y) S(z)\nS(x) <- S(x)",
        // the same variables in other components, and other variables of the same daughters
        "S <- 0\nP(x,y) <- A(x) B(y)\nP(xy,) <- B(y) A(x)\nP(,xy) <- B(y) A(x)",
        "S <- 0\nS(xyzw) <- P(x,y) P(z,w)\nS(wzxy) <- P(x,y) P(z,w)\nS(xzyw) <- P(x,y) P(z,w)",
        // two rules of the same daughters that no order makes equal
        "S <- 0\nP(xz,yw) <- P(x,y) P(z,w)\nP(xz,wy) <- P(x,y) P(z,w)",
    ];
    for text in accepted {
        let rules = text.lines().count() as u32;
        assert_eq!(answer_to(text), Answer::Accepted(rules), "{text}");
    }
}

/// Two rules that differ are doubles exactly when, for some order of the daughters, both make the same strings of theirs: every two rules
/// of S with at most four variables, and of P with at most three. S, A and B have dimension 1, P has dimension 2.
#[test]
fn doubles_make_the_same_strings() {
    let (heading, _) = parts("S <- 0\nA(xy) <- B(x) B(y)\nP(x,y) <- P(x,y)");
    let setting = setting_of(&heading);
    assert_eq!(setting.dimensions, [1, 1, 1, 2]);
    let mut doubles = 0;
    for (category, most) in [(0, 4), (3, 3)] {
        let records = every_record(&setting, category, most);
        let rules: Vec<Rule> = records.iter().flat_map(|record| read_records(&setting, &[*record]).unwrap()).collect();
        for (later, earlier) in (0..rules.len()).flat_map(|later| (0..later).map(move |earlier| (later, earlier))) {
            let double = read_records(&setting, &[records[earlier], records[later]]) == Err(Refusal::grammar(10, 1));
            let [one, other] = [earlier, later].map(|r| &rules[r]);
            assert_eq!(double, makes_the_same_strings(one, other), "{one:?}\n{other:?}");
            doubles += double as usize;
        }
    }
    println!("{doubles} pairs");
    assert!(doubles > 1_000);
}

/// Every record of a nonlexical rule of this category with at most so many variables.
fn every_record(setting: &Setting, category: u8, most: usize) -> Vec<Record> {
    let mut records = Vec::new();
    for daughters in lists_of_daughters(setting.dimensions.len() as u8) {
        let variables = variables_of(setting, &daughters);
        if variables.len() <= most {
            records.extend(orders(variables.len()).iter().flat_map(|order| {
                let ordered: Vec<u8> = order.iter().map(|&v| variables[v]).collect();
                every_cut(setting, category, &daughters, &ordered)
            }));
        }
    }
    records
}

/// Every list of one to three categories.
fn lists_of_daughters(categories: u8) -> Vec<Vec<u8>> {
    let longer = |lists: &[Vec<u8>]| -> Vec<Vec<u8>> {
        lists.iter().flat_map(|list| (0..categories).map(move |category| [&list[..], &[category]].concat())).collect()
    };
    let one = longer(&[vec![]]);
    let two = longer(&one);
    let three = longer(&two);
    [one, two, three].concat()
}

fn variables_of(setting: &Setting, daughters: &[u8]) -> Vec<u8> {
    let components = |category: u8| 0..setting.dimensions[category as usize] as u8;
    daughters.iter().enumerate().flat_map(|(d, &category)| components(category).map(move |c| 4 * d as u8 + c)).collect()
}

/// The variables as one component, or cut into two everywhere, as the category's dimension is.
fn every_cut(setting: &Setting, category: u8, daughters: &[u8], variables: &[u8]) -> Vec<Record> {
    let n = variables.len();
    let record = |first: usize| {
        let mut record = [0; RECORD];
        record[0] = category;
        record[1] = daughters.len() as u8;
        record[2..2 + daughters.len()].copy_from_slice(daughters);
        record[7..9].copy_from_slice(&[first as u8, (n - first) as u8]);
        record[11..11 + n].copy_from_slice(variables);
        record
    };
    let least = if setting.dimensions[category as usize] == 1 { n } else { 0 };
    (least..=n).map(record).collect()
}

fn daughters_of(rule: &Rule) -> &[usize] {
    match &rule.body {
        Body::Lexical(_) => &[],
        Body::Nonlexical { daughters, .. } => daughters,
    }
}

/// Whether some order of the daughters' strings, each of one word of its own, gives both rules their daughters and the same strings.
fn makes_the_same_strings(one: &Rule, other: &Rule) -> bool {
    let (ones, others) = (daughters_of(one), daughters_of(other));
    let strings: Vec<Vec<Vec<u16>>> = (0..ones.len() as u16).map(|d| (0..4).map(|c| vec![4 * d + c]).collect()).collect();
    ones.len() == others.len()
        && orders(ones.len()).iter().any(|order| {
            let reordered: Vec<_> = order.iter().map(|&d| strings[d].clone()).collect();
            order.iter().zip(others).all(|(&d, category)| ones[d] == *category) && joined(other, &reordered) == joined(one, &strings)
        })
}

/// "An older file with such a double loses the verdicts that paper 1 left it."
#[test]
fn every_call_is_refused() {
    let (heading, records) = parts(&[PAIR.trim(), "\nS(yx) <- S(x) S(y)"].concat());
    let file = file_of(&heading, &records);
    let (sentence, list) = (&single_words(&[0, 0]), &[0, 1, 1]);
    let mut out = [7; 96];
    assert_eq!(Reference.check_trace(&grammar_file(PAIR), sentence, list), Answer::Accepted(3));
    assert_eq!(Reference.check_trace(&file, sentence, list), refused(10, 2));
    assert_eq!(Reference.weigh_trace(&file, sentence, list), refused(10, 2));
    assert_eq!(Reference.check_tree(&file, sentence, list), refused(10, 2));
    assert_eq!(Reference.weigh_tree(&file, sentence, list), refused(10, 2));
    assert_eq!(Reference.trace_to_tree(&file, sentence, list, &mut out), refused(10, 2));
    assert_eq!(Reference.tree_to_trace(&file, sentence, list, &mut out[..3]), refused(10, 2));
    assert_eq!(Reference.count(&file, &single_words(&[9]), 0, 0), refused(10, 2));
    assert_eq!(Reference.entry(&file, sentence, 3, 100, 0, &mut out), refused(10, 2));
    assert_eq!(Reference.survey(&file, &mut out), refused(10, 2));
    assert_eq!(out, [7; 96]);
}
