//! What is compared: the answers of document 01, and a side as a set of functions that give them.

use std::fmt::{Debug, Formatter};

/// A token, as document 01's entries have it.
#[derive(Clone, Debug, PartialEq, Eq)]
pub enum Tok {
    Byte(u8),
    NotByte(u8),
    /// The digit and 0 for `?X`, 1 for `X?`, 2 for `??`.
    Masked(u8, u32),
    NotMasked(u8, u32),
    Jump(u32, Option<u32>),
    Alts(Vec<Vec<Tok>>),
}

#[derive(Clone, Copy, Debug, PartialEq, Eq)]
pub struct Refusal {
    pub number: u32,
    pub place: usize,
}

#[derive(Clone, PartialEq, Eq)]
pub struct Read {
    pub words: Vec<u32>,
    pub reached: usize,
}

#[derive(Clone, Debug, PartialEq, Eq)]
pub struct Compiled {
    pub forward: Vec<u64>,
    pub reverse: Vec<u64>,
}

#[derive(Clone, PartialEq, Eq)]
pub struct Picked {
    pub rank: u32,
    pub literals: Vec<Vec<u8>>,
}

#[derive(Clone, Copy, Debug, PartialEq, Eq)]
pub enum Found {
    At(usize),
    Nothing,
}

pub type Answer<T> = Result<T, Refusal>;

/// A window of a haystack.
#[derive(Clone, Copy, Debug)]
pub struct Window<'a> {
    pub hay: &'a [u8],
    pub start: usize,
    pub end: usize,
}

// Words and bytes are shown in hex, offsets and ranks in decimal.
impl Debug for Read {
    fn fmt(&self, f: &mut Formatter<'_>) -> std::fmt::Result {
        write!(f, "words {:x?}, reached {}", self.words, self.reached)
    }
}

impl Debug for Picked {
    fn fmt(&self, f: &mut Formatter<'_>) -> std::fmt::Result {
        write!(f, "rank {}, {} literals {:02X?}", self.rank, self.literals.len(), self.literals)
    }
}

/// One implementation. An absent function, or an answer of None, is not compared.
#[derive(Clone, Copy, Default)]
pub struct Side {
    pub name: &'static str,
    pub read: Option<fn(&[u8]) -> Option<Answer<Read>>>,
    pub compile: Option<fn(&[u8]) -> Option<Answer<Compiled>>>,
    pub literals: Option<fn(&[u8]) -> Option<Answer<Picked>>>,
    pub sound: Option<fn(&[u64]) -> Option<Answer<bool>>>,
    pub mirror: Option<fn(&[u64]) -> Option<Answer<Vec<u64>>>>,
    pub forward: Option<fn(&[u64], Window) -> Option<Answer<Found>>>,
    pub reverse: Option<fn(&[u64], Window) -> Option<Answer<Found>>>,
}

/// Bytes that are spelt in hex.
pub fn hex(text: &str) -> Vec<u8> {
    let byte = |at: usize| u8::from_str_radix(&text[2 * at..2 * at + 2], 16).expect("hex");
    (0..text.len() / 2).map(byte).collect()
}

/// The four-word entries of a list, its own mark not among them.
pub fn entries(list: &[Tok]) -> Vec<u32> {
    let mut words = Vec::new();
    for token in list {
        match token {
            Tok::Byte(b) => words.extend([0, u32::from(*b), 0, 0]),
            Tok::NotByte(b) => words.extend([1, u32::from(*b), 0, 0]),
            Tok::Masked(d, side) => words.extend([2, u32::from(*d), *side, 0]),
            Tok::NotMasked(d, side) => words.extend([3, u32::from(*d), *side, 0]),
            Tok::Jump(from, to) => {
                words.extend([4, *from, to.unwrap_or(0), u32::from(to.is_some())]);
            }
            Tok::Alts(lists) => {
                let mut within = Vec::new();
                for list in lists {
                    let inner = entries(list);
                    within.extend([6, list.len() as u32, inner.len() as u32 / 4, 0]);
                    within.extend(inner);
                }
                words.extend([5, lists.len() as u32, within.len() as u32 / 4, 0]);
                words.extend(within);
            }
        }
    }
    words
}
