//! Grammars that are the same but for the numbers of their categories and rules, and grammars that nearly are.

use reference::file::read;
use reference::grammar::{Body, Grammar, Rule};
use reference::notation::grammar_file;
use reference::renaming::renaming;
use reference::samples::{AGREEMENT, COPY, SMALL};

fn grammar(text: &str) -> Grammar {
    read(&grammar_file(text)).unwrap()
}

/// The rule with other names for the categories.
fn renamed(rule: &Rule, name: impl Fn(usize) -> usize) -> Rule {
    let mut rule = Rule { category: name(rule.category), ..rule.clone() };
    if let Body::Nonlexical { daughters, .. } = &mut rule.body {
        daughters.iter_mut().for_each(|daughter| *daughter = name(*daughter));
    }
    rule
}

/// The category with number c gets the number (factor * c + shift) modulo the number of categories, and the rules stand in another order.
fn renumbered(grammar: &Grammar, factor: usize, shift: usize) -> Grammar {
    let n = grammar.dimensions.len();
    let name = |c: usize| (factor * c + shift) % n;
    let mut dimensions = vec![0; n];
    (0..n).for_each(|c| dimensions[name(c)] = grammar.dimensions[c]);
    let mut rules: Vec<Rule> = grammar.rules.iter().map(|rule| renamed(rule, name)).collect();
    let rule_count = rules.len();
    rules.rotate_left(shift % rule_count);
    rules.reverse();
    Grammar { dimensions, start: name(grammar.start), words: grammar.words, rules }
}

#[test]
fn other_numbers() {
    for text in SMALL.into_iter().chain([AGREEMENT]) {
        let grammar = grammar(text);
        let n = grammar.dimensions.len();
        let has_common_divisor = |factor: usize| (2..=n).any(|d| factor % d == 0 && n % d == 0);
        for factor in (1..8).filter(|&factor| !has_common_divisor(factor)) {
            for shift in 0..7 {
                let other = renumbered(&grammar, factor, shift);
                let names = renaming(&grammar, &other).expect("the same but for the numbers");
                // these names make the one grammar the other
                assert_eq!(names[grammar.start], other.start);
                assert!((0..n).all(|c| grammar.dimensions[c] == other.dimensions[names[c]]));
                let sorted = |mut rules: Vec<Rule>| {
                    rules.sort();
                    rules
                };
                let by_names = grammar.rules.iter().map(|rule| renamed(rule, |c| names[c])).collect();
                assert_eq!(sorted(by_names), sorted(other.rules.clone()));
            }
        }
    }
}

/// Categories that have the same part, and one that differs from them far away.
#[test]
fn categories_of_one_part() {
    let alike = "S(xy) <- A(x) B(y)\nS(xy) <- B(x) C(y)\nS(xy) <- C(x) A(y)\nA <- 0\nB <- 0\nC <- 0";
    let turned = "S(xy) <- B(x) A(y)\nS(xy) <- A(x) C(y)\nS(xy) <- C(x) B(y)\nA <- 0\nB <- 0\nC <- 0";
    assert!(renaming(&grammar(alike), &grammar(turned)).is_some());
    // two circles of three are no circle of six
    let circles = |next: [usize; 6]| {
        let rules = (0..6).map(|c| format!("S(xy) <- A{c}(x) A{}(y)\n", next[c])).chain((0..6).map(|c| format!("A{c} <- 0\n")));
        grammar(&rules.collect::<String>())
    };
    let (six, threes) = (circles([1, 2, 3, 4, 5, 0]), circles([1, 2, 0, 4, 5, 3]));
    assert!(renaming(&six, &threes).is_none());
    assert!(renaming(&threes, &circles([2, 3, 4, 5, 0, 1])).is_some());
    assert!(renaming(&six, &circles([5, 0, 1, 2, 3, 4])).is_some());
}

/// One thing changed, which is not one of numbers.
#[test]
fn near_misses() {
    let right = grammar(COPY);
    let differs = |change: &dyn Fn(&mut Grammar)| {
        let mut other = renumbered(&right, 3, 1);
        assert!(renaming(&right, &other).is_some());
        change(&mut other);
        renaming(&right, &other).is_none() && renaming(&other, &right).is_none()
    };
    assert!(differs(&|other| other.words += 1));
    assert!(differs(&|other| other.dimensions.push(1)));
    assert!(differs(&|other| other.start = other.rules.iter().find(|rule| matches!(rule.body, Body::Lexical(_))).unwrap().category));
    for r in 0..7 {
        assert!(differs(&|other| other.rules[r].weight = 1), "{r}");
        assert!(differs(&|other| other.rules[r] = other.rules[(r + 1) % 7].clone()), "{r}");
        assert!(differs(&|other| drop(other.rules.remove(r))), "{r}");
        assert!(differs(&|other| other.rules.push(other.rules[r].clone())), "{r}");
        let rule = &renumbered(&right, 3, 1).rules[r];
        if matches!(&rule.body, Body::Nonlexical { components, .. } if components[0].len() == 1) {
            continue;
        }
        assert!(
            differs(&|other| match &mut other.rules[r].body {
                Body::Lexical(word) => *word = None,
                Body::Nonlexical { components, .. } => components[0].reverse(),
            }),
            "{r}"
        );
    }
    // a daughter in another's place, the variables renumbered to match
    let one = grammar("S(xy) <- A(x) B(y)\nA <- 0\nB <- 1");
    let other = grammar("S(xy) <- B(y) A(x)\nA <- 0\nB <- 1");
    assert!(renaming(&one, &other).is_none());
}
