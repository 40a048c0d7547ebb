//! The three profiles of the language: which tokens there are, what the parts of programs cost, how an example finds its
//! branch, and how deep lookups may nest. The prices that no profile changes are constants.
use crate::tokens::{Span, Token, SPANS};

/// A profile of the language.
pub struct Profile {
    /// The tokens of the profile, in order.
    pub tokens: &'static [Token],
    pub prices: Prices,
    pub placing: Placing,
    /// The greatest depth that a session may ask for.
    pub most_depth: u8,
    /// The last token that a saved program may have: the first two profiles have one notation.
    pub last_read: Token,
}

/// Of the branches that an example shares a program with, the one that it joins.
#[derive(Clone, Copy, PartialEq)]
pub enum Placing {
    /// The first one.
    FirstFit,
    /// The one whose least program then costs least more than before; of several the first.
    LeastCost,
}

/// The prices in which profiles differ.
pub struct Prices {
    /// A character of a constant that is no separator.
    pub character: u64,
    /// A condition that is a constant.
    pub constant_condition: u64,
    /// A token of one character, `Space` and `NonSpace`.
    pub small_token: u64,
    /// A token of another run.
    pub run_token: u64,
    /// A count below 0, beside its steps.
    pub backwards: u64,
}

/// Each atom of a program.
pub const ATOM: u64 = 5;
/// A constant as an atom of a program, beside its characters.
pub const CONSTANT: u64 = 10;
/// A separator in such a constant.
pub const SEPARATOR: u64 = 1;
pub const WHOLE: u64 = 2;
pub const SUB: u64 = 6;
pub const SELECT: u64 = 8;
/// A condition that is no constant.
pub const CONDITION: u64 = 2;
/// `CPos(0)` and `CPos(-1)`.
pub const EDGE_PLACE: u64 = 1;
/// Another `CPos`.
pub const COUNTED_PLACE: u64 = 10;
/// `Pos`, beside its tokens and its count.
pub const POS: u64 = 2;
/// `Start` and `End`.
pub const EDGE_TOKEN: u64 = 2;
/// Each step of a count beyond 1 or -1.
pub const STEP: u64 = 2;

const FIRST_PRICES: Prices = Prices { character: 12, constant_condition: 15, small_token: 2, run_token: 2, backwards: 0 };
const THIRD_PRICES: Prices = Prices { character: 40, constant_condition: 40, small_token: 1, run_token: 4, backwards: 2 };

static FIRST: Profile = Profile {
    tokens: &[1, 2, 3, 4, 5, 6, 7, 8, 9, 10, 11, 12, 13, 14, 15, 16, 17, 18, 19, 20, 21, 22, 23, 24, 25, 26],
    prices: FIRST_PRICES,
    placing: Placing::FirstFit,
    most_depth: 2,
    last_read: 29,
};
static SECOND: Profile = Profile {
    tokens: &[1, 2, 3, 4, 5, 6, 7, 8, 9, 10, 11, 12, 13, 14, 15, 16, 17, 18, 19, 20, 21, 22, 23, 24, 25, 26, 27, 28, 29],
    prices: FIRST_PRICES,
    placing: Placing::LeastCost,
    most_depth: 3,
    last_read: 29,
};
static THIRD: Profile = Profile {
    tokens: &[
        1, 2, 3, 4, 5, 6, 7, 8, 9, 10, 11, 12, 13, 14, 15, 16, 17, 18, 19, 20, 21, 22, 23, 24, 25, 26, 27, 30, 31, 32, 33, 34,
        35, 36, 37, 38,
    ],
    prices: THIRD_PRICES,
    placing: Placing::FirstFit,
    most_depth: 3,
    last_read: 38,
};

impl Profile {
    /// The profile of a number from 1 to 3.
    pub fn of(number: u8) -> &'static Profile {
        match number {
            1 => &FIRST,
            2 => &SECOND,
            3 => &THIRD,
            _ => panic!("no profile {number}"),
        }
    }
}

impl Prices {
    pub fn token(&self, token: Token) -> u64 {
        match &SPANS[token as usize] {
            Span::Start | Span::End => EDGE_TOKEN,
            Span::One(_) => self.small_token,
            Span::Run(..) if token == crate::tokens::SPACE_TOKEN || token == crate::tokens::NON_SPACE_TOKEN => self.small_token,
            Span::Run(..) => self.run_token,
        }
    }
}
