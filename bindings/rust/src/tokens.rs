use crate::refusal::Refused;
use crate::{broken, nothing_after, of_this_version, raw, refused, within};

/// What a masked byte leaves open.
#[derive(Clone, Copy, Debug, PartialEq, Eq, Hash)]
pub enum Mask {
    /// `?X`
    Left,
    /// `X?`
    Right,
    /// `??`
    All,
}

/// A token of a hexadecimal string.
#[derive(Clone, Debug, PartialEq, Eq, Hash)]
pub enum Token {
    /// `AB`
    Byte(u8),
    /// `~AB`
    NotByte(u8),
    /// `?X`, `X?`, `??`: the digit as typed, 0 for `??`
    MaskedByte(u8, Mask),
    /// `~?X`, `~X?`
    NotMaskedByte(u8, Mask),
    /// `[from-to]`, `[from-]`
    Jump {
        /// The fewest bytes.
        from: u32,
        /// The most, if there is a bound.
        to: Option<u32>,
    },
    /// `( .. | .. )`
    Alternatives(Vec<Vec<Token>>),
}

/// A text as it was read.
#[derive(Clone, Debug, PartialEq, Eq, Hash)]
pub struct Tokens {
    /// The tokens of the outer list.
    pub tokens: Vec<Token>,
    /// The offset after the closing brace and its blanks; what follows is ignored.
    pub reached: usize,
}

/// Reads a hexadecimal string. What follows the closing brace and its blanks is ignored; [`read_strict`] refuses it.
///
/// ```
/// use tokenmarsh::{read, Token};
///
/// let read = read(b"{ AB [2-3] CD } rest").unwrap();
/// assert_eq!(read.reached, 16);
/// assert_eq!(read.tokens[1], Token::Jump { from: 2, to: Some(3) });
/// ```
///
/// # Errors
///
/// Refusals 1 to 11, each with its place.
pub fn read(text: &[u8]) -> Result<Tokens, Refused> {
    of_this_version()?;
    let mut pool = vec![0u32; crate::TOKEN_POOL];
    // SAFETY: both slices are good for their lengths, and they do not overlap.
    let r = unsafe { raw::tm_read(text.as_ptr(), text.len(), pool.as_mut_ptr(), pool.len()) };
    refused(r.refusal, r.place, text)?;
    let words = &pool[..within(r.words, crate::TOKEN_POOL)];
    let entries: Vec<[u32; 4]> = words.chunks_exact(4).map(|e| [e[0], e[1], e[2], e[3]]).collect();
    Ok(Tokens { tokens: list(&entries), reached: within(r.reached, text.len()) })
}

/// As [`read`], and refuses what follows the closing brace and its blanks.
///
/// # Errors
///
/// As [`read`], then [`Refusal::Leftover`](crate::Refusal::Leftover) at the first byte that follows.
pub fn read_strict(text: &[u8]) -> Result<Tokens, Refused> {
    let tokens = read(text)?;
    nothing_after(text, tokens.reached)?;
    Ok(tokens)
}

fn mask(number: u32) -> Mask {
    match number {
        0 => Mask::Left,
        1 => Mask::Right,
        2 => Mask::All,
        _ => broken(format_args!("mask {number}")),
    }
}

/// The tokens of a list's entries.
fn list(mut entries: &[[u32; 4]]) -> Vec<Token> {
    let mut tokens = Vec::new();
    while let Some((&[kind, a, b, c], rest)) = entries.split_first() {
        entries = rest;
        tokens.push(match kind {
            0 => Token::Byte(a as u8),
            1 => Token::NotByte(a as u8),
            2 => Token::MaskedByte(a as u8, mask(b)),
            3 => Token::NotMaskedByte(a as u8, mask(b)),
            4 => Token::Jump { from: a, to: (c == 1).then_some(b) },
            5 => {
                let (mut inside, after) = entries.split_at(within(u64::from(b), entries.len()));
                entries = after;
                let mut lists = Vec::new();
                while let Some((mark, rest)) = inside.split_first() {
                    let (one, more) = rest.split_at(within(u64::from(mark[2]), rest.len()));
                    lists.push(list(one));
                    inside = more;
                }
                Token::Alternatives(lists)
            }
            _ => broken(format_args!("token {kind}")),
        });
    }
    tokens
}
