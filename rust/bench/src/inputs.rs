//! What is measured: a name, a grammar, a sentence and a node limit each.

use reference::samples::PAIR;
use reference::word;

/// Ambiguous, of dimension 2: pairs of strings joined left to left and right to right, or the right strings turned round.
const TWO: &str = "
S(xy) <- P(x,y)
P(xz,yw) <- P(x,y) P(z,w)
P(xz,wy) <- P(x,y) P(z,w)
P(x,y) <- A(x) A(y)
A <- 0
A <- 1
";

/// Of dimension 4, with long queues: four strings that grow together.
const FOUR: &str = "
S(abcd) <- Q(a,b,c,d)
Q(ae,bf,cg,dh) <- Q(a,b,c,d) Q(e,f,g,h)
Q(a,b,c,d) <- P(a,c) P(b,d)
P(x,y) <- A(x) A(y)
A <- 0
";

pub type Input = (&'static str, &'static str, Vec<u32>, usize);

pub fn inputs() -> Vec<Input> {
    vec![pair(14), two(7), four(8)]
}

/// Growing sentences for each grammar.
pub fn growing() -> Vec<Input> {
    let pairs = [6, 8, 10, 12, 14].map(pair);
    let twos = [3, 4, 5, 6, 7].map(two);
    let fours = [4, 5, 6, 7, 8].map(four);
    pairs.into_iter().chain(twos).chain(fours).collect()
}

fn pair(words: usize) -> Input {
    ("pair", PAIR, vec![word(0); words], 2 * words - 1)
}

fn two(pairs: usize) -> Input {
    ("dimension 2", TWO, vec![word(0); 2 * pairs], 4 * pairs)
}

fn four(fours: usize) -> Input {
    ("dimension 4", FOUR, vec![word(0); 4 * fours], 8 * fours)
}
