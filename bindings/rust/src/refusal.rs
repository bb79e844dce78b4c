use std::error::Error;
use std::fmt;

use crate::messages;

/// Why a call gives no answer: the refusals of the library's table, and three that are this crate's own.
#[derive(Clone, Copy, Debug, PartialEq, Eq, Hash)]
#[non_exhaustive]
pub enum Refusal {
    /// 1: the text has more than 4,096 bytes.
    TextTooLong,
    /// 2: something needed isn't there.
    Unexpected,
    /// 3: a number above 4,294,967,295.
    NumberTooBig,
    /// 4: `[0]`, `[0-0]` or `[-0]`.
    JumpEmpty,
    /// 5: a jump whose from is above its to.
    JumpRangeInvalid,
    /// 6: a list begins with a jump, or has two or more tokens and ends with one.
    JumpAtBound,
    /// 7: an unbounded jump in alternatives.
    JumpUnboundedInAlternation,
    /// 8: a jump above 200 in alternatives.
    JumpTooBigInAlternation,
    /// 9: `~??`.
    CannotNegateMaskAll,
    /// 10: a ninth list level.
    HexStringTooDeep,
    /// 11: a 513th token.
    TooManyTokens,
    /// 12: a jump unbounded or above 65,535; in a branch, a range or nested alternatives.
    NotSimple,
    /// 13: more than 512 nodes.
    TooManyNodes,
    /// 14: a branch above 255 nodes.
    BranchTooLong,
    /// 15: the words are no sound program ([`NodeWord`](crate::NodeWord)).
    Unsound,
    /// 16: a window that starts above its end or ends above its haystack's length.
    BadWindow,
    /// 17: a candidate with more than 256 literals.
    TooManyLiterals,
    /// 18: a lent buffer is too short.
    NoRoom,
    /// 19: alternatives that hold more than bytes and classes: no literals are picked from those.
    NotPlain,
    /// Text after the closing brace and its blanks, which only the strict ways refuse.
    Leftover,
    /// A number that this crate doesn't know. What is refused for an unknown reason is refused all the same.
    Unknown(u32),
    /// The library that is linked has this version, as its `tm_version` tells it, and is not the one that this crate is made for.
    OtherVersion(u32),
}

/// The table of include/tokenmarsh.h, from 1 on, in its words.
const TABLE: [(Refusal, &str); 19] = [
    (Refusal::TextTooLong, "text above 4,096 bytes"),
    (Refusal::Unexpected, "something needed isn't there"),
    (Refusal::NumberTooBig, "number above 4,294,967,295"),
    (Refusal::JumpEmpty, "an empty jump"),
    (Refusal::JumpRangeInvalid, "a jump whose from is above its to"),
    (Refusal::JumpAtBound, "a list begins with a jump, or has two or more tokens and ends with one"),
    (Refusal::JumpUnboundedInAlternation, "unbounded jump in alternatives"),
    (Refusal::JumpTooBigInAlternation, "jump above 200 in alternatives"),
    (Refusal::CannotNegateMaskAll, "~??, which fits no byte"),
    (Refusal::HexStringTooDeep, "a ninth list level"),
    (Refusal::TooManyTokens, "a 513th token"),
    (Refusal::NotSimple, "not simple"),
    (Refusal::TooManyNodes, "more than 512 nodes"),
    (Refusal::BranchTooLong, "a branch above 255 nodes"),
    (Refusal::Unsound, "unsound program"),
    (Refusal::BadWindow, "window start above its end, or end above the haystack's length"),
    (Refusal::TooManyLiterals, "a candidate with more than 256 literals"),
    (Refusal::NoRoom, "a lent buffer is too short"),
    (Refusal::NotPlain, "alternatives not plain"),
];

impl Refusal {
    /// The refusal of a number, if it is one of the table's.
    #[must_use]
    pub fn from_number(number: u32) -> Option<Self> {
        let row = TABLE.get(number.checked_sub(1)? as usize)?;
        Some(row.0)
    }

    /// The number that the library gave; [`Refusal::Leftover`] and [`Refusal::OtherVersion`] have none.
    #[must_use]
    pub fn number(self) -> Option<u32> {
        match self {
            Self::Unknown(number) => Some(number),
            _ => TABLE.iter().position(|row| row.0 == self).map(|at| at as u32 + 1),
        }
    }

    /// Whether its place means something.
    fn has_place(self) -> bool {
        self == Self::Leftover || self.number().map_or(false, |number| (2..=11).contains(&number))
    }
}

impl fmt::Display for Refusal {
    fn fmt(&self, f: &mut fmt::Formatter<'_>) -> fmt::Result {
        match self {
            Self::Leftover => f.write_str("text after the closing brace"),
            Self::Unknown(_) => write!(f, "unknown to version {}", env!("CARGO_PKG_VERSION")),
            Self::OtherVersion(n) => {
                let [_, major, minor, patch] = n.to_be_bytes();
                let ours = env!("CARGO_PKG_VERSION");
                write!(f, "libtokenmarsh is of version {major}.{minor}.{patch}, and this crate of {ours}")
            }
            _ => f.write_str(TABLE.iter().find(|row| row.0 == *self).map_or("", |row| row.1)),
        }
    }
}

impl Error for Refusal {}

/// A refusal of a text. Its message says what was expected, what stands there and where:
///
/// ```
/// let refused = tokenmarsh::read(b"{ AB g }").unwrap_err();
/// assert_eq!(refused.to_string(), "refused 2 at 5: expected a byte, '~', '[', '(' or '}', found 'g'");
/// ```
#[derive(Clone, Debug, PartialEq, Eq, Hash)]
pub struct Refused {
    /// Why.
    pub refusal: Refusal,
    /// The offset in the text that it is given at; 0 where none is meant, as for 1 and from 12 on.
    pub place: usize,
    /// For [`Refusal::NotSimple`] and [`Refusal::NotPlain`], the offset of the first token that is the reason.
    pub token: Option<usize>,
    words: String,
}

impl Refused {
    pub(crate) fn new(refusal: Refusal, place: usize, text: &[u8]) -> Self {
        let (words, token) = messages::of(refusal, place, text);
        Self { refusal, place, token, words }
    }
}

impl From<Refusal> for Refused {
    /// A refusal that is not one of a text.
    fn from(refusal: Refusal) -> Self {
        Self { refusal, place: 0, token: None, words: refusal.to_string() }
    }
}

impl fmt::Display for Refused {
    fn fmt(&self, f: &mut fmt::Formatter<'_>) -> fmt::Result {
        f.write_str("refused")?;
        if let Some(number) = self.refusal.number() {
            write!(f, " {number}")?;
        }
        if self.refusal.has_place() {
            write!(f, " at {}", self.place)?;
        }
        write!(f, ": {}", self.words)
    }
}

impl Error for Refused {}
