//! Tokens, what they span, and sequences of up to three of them.
use crate::profile::Prices;
use crate::text::*;

/// A token by its number, from 1 on.
pub type Token = u8;
pub const START: Token = 1;
pub const END: Token = 2;
pub const SPACE_TOKEN: Token = 8;
pub const NON_SPACE_TOKEN: Token = 27;

/// What a token spans.
pub enum Span {
    Start,
    End,
    One(char),
    /// A run of characters of some classes; with `true` of characters outside of them.
    Run(u8, bool),
}

use Span::{One, Run};
/// The names of the tokens, by number.
pub static NAMES: [&str; 39] = [
    "",
    "Start",
    "End",
    "Digits",
    "Upper",
    "Lower",
    "Alpha",
    "Word",
    "Space",
    "Hyphen",
    "Dot",
    "Comma",
    "Semicolon",
    "Colon",
    "Slash",
    "Backslash",
    "Underscore",
    "At",
    "Hash",
    "Ampersand",
    "LeftParen",
    "RightParen",
    "DoubleQuote",
    "SingleQuote",
    "Percent",
    "Plus",
    "Dollar",
    "NonSpace",
    "NonDigit",
    "NonAlpha",
    "Equals",
    "Less",
    "Greater",
    "LeftBracket",
    "RightBracket",
    "LeftBrace",
    "RightBrace",
    "Bar",
    "Newline",
];
/// What the tokens span, by number; the one in front is no token.
pub static SPANS: [Span; 39] = [
    Span::Start,
    Span::Start,
    Span::End,
    Run(DIGIT, false),
    Run(UPPER, false),
    Run(LOWER, false),
    Run(ALPHA, false),
    Run(ALPHA | DIGIT, false),
    Run(SPACE, false),
    One('-'),
    One('.'),
    One(','),
    One(';'),
    One(':'),
    One('/'),
    One('\\'),
    One('_'),
    One('@'),
    One('#'),
    One('&'),
    One('('),
    One(')'),
    One('"'),
    One('\''),
    One('%'),
    One('+'),
    One('$'),
    Run(SPACE, true),
    Run(DIGIT, true),
    Run(ALPHA, true),
    One('='),
    One('<'),
    One('>'),
    One('['),
    One(']'),
    One('{'),
    One('}'),
    One('|'),
    One('\n'),
];

/// Whether a character is in the class of a run token.
pub fn is_in_run(token: Token, c: char) -> bool {
    match SPANS[token as usize] {
        Run(classes, outside) => (class_of(c) & classes != 0) != outside,
        _ => false,
    }
}

/// Where the piece ends that a token spans from a position on.
pub fn span(token: Token, text: &[char], from: usize) -> Option<usize> {
    let n = text.len();
    match SPANS[token as usize] {
        Span::Start => (from == 0).then_some(0),
        Span::End => (from == n).then_some(n),
        One(c) => (from < n && text[from] == c).then_some(from + 1),
        Run(..) => {
            let is_in = |i: usize| is_in_run(token, text[i]);
            if from >= n || !is_in(from) || (from > 0 && is_in(from - 1)) {
                return None;
            }
            (from + 1..=n).find(|&to| to == n || !is_in(to))
        }
    }
}

/// Where the piece begins that a token spans up to a position.
fn span_back(token: Token, text: &[char], to: usize) -> Option<usize> {
    let n = text.len();
    match SPANS[token as usize] {
        Span::Start => (to == 0).then_some(0),
        Span::End => (to == n).then_some(n),
        One(c) => (to > 0 && text[to - 1] == c).then(|| to - 1),
        Run(..) => {
            let is_in = |i: usize| is_in_run(token, text[i]);
            if to == 0 || !is_in(to - 1) || (to < n && is_in(to)) {
                return None;
            }
            (0..to).rev().find(|&from| from == 0 || !is_in(from - 1))
        }
    }
}

/// A sequence of up to three tokens, under a number: shorter ones first, and then by their tokens. So the order of the
/// numbers is that of the language.
pub type Seq = u16;
pub const EMPTY: Seq = 0;
const BASE: u16 = 38;
const FIRST_OF_TWO: u16 = 1 + BASE;
const FIRST_OF_THREE: u16 = FIRST_OF_TWO + BASE * BASE;
/// How many sequences there are.
pub const SEQS: usize = FIRST_OF_THREE as usize + BASE as usize * BASE as usize * BASE as usize;

pub fn seq(tokens: &[Token]) -> Seq {
    let place = |t: Token| t as u16 - 1;
    match *tokens {
        [] => EMPTY,
        [x] => 1 + place(x),
        [x, y] => FIRST_OF_TWO + place(x) * BASE + place(y),
        [x, y, z] => FIRST_OF_THREE + (place(x) * BASE + place(y)) * BASE + place(z),
        _ => panic!("a sequence of more than three tokens"),
    }
}

/// The tokens of a sequence, and how many they are.
pub fn seq_tokens(s: Seq) -> ([Token; 3], usize) {
    let token = |place: u16| (place % BASE) as u8 + 1;
    if s == EMPTY {
        ([0; 3], 0)
    } else if s < FIRST_OF_TWO {
        ([s as u8, 0, 0], 1)
    } else if s < FIRST_OF_THREE {
        let at = s - FIRST_OF_TWO;
        ([token(at / BASE), token(at), 0], 2)
    } else {
        let at = s - FIRST_OF_THREE;
        ([token(at / BASE / BASE), token(at / BASE), token(at)], 3)
    }
}

pub fn seq_cost(s: Seq, prices: &Prices) -> u64 {
    let (tokens, n) = seq_tokens(s);
    tokens[..n].iter().map(|&t| prices.token(t)).sum()
}

/// Whether a piece that a sequence spans ends at a position.
pub fn ends_at(s: Seq, text: &[char], k: usize) -> bool {
    let (tokens, n) = seq_tokens(s);
    tokens[..n].iter().rev().try_fold(k, |at, &t| span_back(t, text, at)).is_some()
}

/// Whether a piece that a sequence spans begins at a position.
pub fn begins_at(s: Seq, text: &[char], k: usize) -> bool {
    let (tokens, n) = seq_tokens(s);
    tokens[..n].iter().try_fold(k, |at, &t| span(t, text, at)).is_some()
}

/// How many pieces of a text a sequence spans.
pub fn match_count(s: Seq, text: &[char]) -> usize {
    (0..=text.len()).filter(|&from| begins_at(s, text, from)).count()
}
