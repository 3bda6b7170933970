//! Grammars of document 01 and of its source (W11-0605), and other small ones, in writing.

/// The copy grammar of document 01: a string over two words, twice.
pub const COPY: &str = "
S(xy) <- P(x,y)
P(ax,cy) <- A(a) P(x,y) A(c)
P(bx,dy) <- B(b) P(x,y) B(d)
P(a,c) <- A(a) A(c)
P(b,d) <- B(b) B(d)
A <- 0
B <- 1
";

/// The pair grammar of document 01: every way to put a row of words into pairs.
pub const PAIR: &str = "
S(xy) <- S(x) S(y)
S <- 0
";

/// Example 1 of the source, section 2.1: i times a, j times b, i times c, j times d, as words 0 to 3. Its rules a to i are rules 0 to 8.
pub const CROSSING: &str = "
S(xyzw) <- AC(x,z) BD(y,w)
AC(xy,zw) <- A(x) C(z) AC(y,w)
AC(x,z) <- A(x) C(z)
BD(xy,zw) <- B(x) D(z) BD(y,w)
BD(x,z) <- B(x) D(z)
A <- 0
B <- 1
C <- 2
D <- 3
";

/// A chain of any length above each word.
pub const CHAIN: &str = "
S(x) <- S(x)
S(xy) <- S(x) S(y)
S <- 0
S <- 1
";

/// Empty words.
pub const SILENT: &str = "
S(xy) <- S(x) S(y)
S <- empty
S <- 0
";

/// Empty components, and components that change places.
pub const SWAPPED: &str = "
S(xy) <- P(x,y)
P(y,x) <- P(x,y)
P(xy,) <- P(x,y)
P(,x) <- A(x)
P(x,) <- A(x)
A <- 0
A <- empty
";

/// Four components, shuffled.
pub const SHUFFLED: &str = "
S(wxyz) <- Q(x,w,z,y)
S(ywxz) <- Q(x,w,z,y)
Q(a,b,c,d) <- P(a,c) P(b,d)
Q(ab,,c,d) <- P(c,a) P(d,b)
P(x,y) <- A(x) A(y)
P(,xy) <- A(x) A(y)
A <- 0
A <- 1
";

/// Twelve variables in one component.
pub const TWELVE: &str = "
S(abcdefghijkl) <- Q(e,a,k,b) Q(c,i,f,l) Q(j,g,d,h)
Q(x,,y,) <- A(x) A(y)
Q(,x,,y) <- A(x) A(y)
A <- 0
A <- 1
";

/// Singular and plural that agree: the, dog, dogs, barks, bark, as words 0 to 4. An unclear ending leaves open which it is.
pub const AGREEMENT: &str = "
S(xy) <- NS(x) VS(y)
S(xy) <- NP(x) VP(y)
NS(xy) <- D(x) CS(y)
NP(xy) <- D(x) CP(y)
D <- 0
CS <- 1
CP <- 2
VS <- 3
VP <- 4
";

/// A prepositional phrase goes with the verb phrase or with the noun phrase before it: I, saw, the, man, with, telescope, as words 0 to 5.
pub const ATTACHMENT: &str = "
S(xy) <- NP(x) VP(y)
VP(xy) <- V(x) NP(y)
VP(xy) <- VP(x) PP(y)
NP(xy) <- D(x) N(y)
NP(xy) <- NP(x) PP(y)
PP(xy) <- P(x) NP(y)
NP <- 0
V <- 1
D <- 2
N <- 3
P <- 4
N <- 5
";

/// Small grammars with several analyses, empty words, empty components and components out of order.
pub const SMALL: [&str; 8] = [COPY, PAIR, CROSSING, CHAIN, SILENT, SWAPPED, SHUFFLED, TWELVE];

/// Example 2 of the source, section 3.1, a lexicon with the start category C.
pub const KNOWS: &str = "
Mary :: D
John :: D
who :: D -wh
likes :: =D =D V
knows :: =C =D V
empty :: =V C
empty :: =V +wh C
";

/// English questions, a lexicon with the start category C: an empty complementizer attracts the question word of an embedded question, and
/// `does` that of a main one, whose verb then has no ending. Mary knows who John likes; who does Mary like.
pub const QUESTION: &str = "
empty :: =V C
empty :: =V +wh Q
does :: =I +wh C
Mary :: D
John :: D
who :: D -wh
likes :: =D =D V
knows :: =Q =D V
like :: =D =D I
know :: =Q =D I
";

/// Lexicons with the start category c: trees that branch, with and without empty words, chains that move once and twice, past each other
/// and along with what they are in, and expressions that end nowhere because of a chain without features, of one that begins with no
/// licensee or of two that begin with the same.
pub const LEXICONS: [&str; 9] = [
    "a :: c\nb :: =c c\nempty :: =c c",
    "a :: c\nb :: =c =c c",
    "a :: d -w\nb :: =d +w c\nempty :: d -w\na :: d",
    "a :: d -w -v\nb :: =d +w +v c\nb :: =d +w e\nempty :: =e +v c",
    "a :: d -w -v\nb :: h -u\na :: =d =h +w +u +v c\nb :: =h =d +w +v +u c\nempty :: =d =h +u +w +v c",
    "a :: d -v\nb :: =d e -w\na :: h -u\nb :: =h =e +u +w +v c\nempty :: h -u",
    "a :: d -w\nb :: =d =d +w c\nb :: =d =d +w +w c\nempty :: d\na :: d -v\nb :: =d +v d",
    "a :: c\nb :: =c\na :: c =c\nb :: =c c -w\nempty :: =c +w c\nb :: c c",
    "a :: c -w\nb :: =c c -w\na :: =c +w c\nb :: =c +w c -v\nempty :: =c +v c",
];

/// The entries of a lexicon with the start category 1 that makes 236 rules and 61 categories, with so many more words of its category 1, a
/// rule each, and so many entries that are in no other rule, a rule and a category each: 64 categories and 256 rules of 17 and 3.
///
/// It has 1, 1 -u, 1 -v, 1 -w, =1 1, =1 =1 1 and =1 =1 =1 1. The 16 rows of different licensees are the moving chains of categories
/// <0, 1, ..>, <0, =1 1, ..> and <0, =1 =1 1, ..>: 48 categories. Each of the three entries that select merges with <1, 1>, with 16
/// categories <0, 1, ..> and with three entries that then move: 60 rules. Each row can be cut in two in one more way than it has chains: 49
/// ways, by which a category <0, =1 .., ..> merges with one <0, 1, ..>; 16 such categories merge with <1, 1>, and 15 times one of them
/// merges with an entry that then moves: 160 rules of two heads. With the seven entries, the new start and its two rules these are 229
/// rules and 56 categories.
///
/// 3 -u and =3 +u 1 are four rules and three categories more, 2 and =2 1 are three rules and two categories.
pub fn full_lexicon(words: usize, others: usize) -> Vec<u8> {
    let rows: [&[u8]; 11] =
        [&[1], &[1, 49], &[1, 50], &[1, 51], &[17, 1], &[17, 17, 1], &[17, 17, 17, 1], &[3, 49], &[19, 33, 1], &[2], &[18, 1]];
    let entry = |word: usize, row: &[u8]| [&[word as u8, 0], row, &[0; 6][row.len()..]].concat();
    let others = (0..others).map(|other| entry(0, &[4 + other as u8]));
    let words = (1..=words).map(|word| entry(word, &[1]));
    rows.into_iter().map(|row| entry(0, row)).chain(others).chain(words).flatten().collect()
}
