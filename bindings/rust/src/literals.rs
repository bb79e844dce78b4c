use crate::refusal::Refused;
use crate::{nothing_after, of_this_version, raw, refused, within};

/// 256 literals of 512 bytes are the most that there can be.
const BYTES: usize = 256 * 512;
const COUNT: usize = 256;

/// The literals picked from a pattern: if there are any, every match holds one of them.
#[derive(Clone, Debug, PartialEq, Eq, Hash)]
pub struct Literals {
    /// In their order; repeats stay.
    pub literals: Vec<Vec<u8>>,
    /// How good they are for a search: 0 to 80.
    pub rank: u32,
    /// The offset after the closing brace and its blanks; what follows is ignored.
    pub reached: usize,
}

/// Picks the literals to search for. What follows the closing brace and its blanks is ignored; [`literals_strict`] refuses it.
///
/// ```
/// let picked = tokenmarsh::literals(b"{ 01 02 ?3 04 }").unwrap();
/// assert_eq!((picked.rank, picked.literals.len()), (70, 16));
/// ```
///
/// # Errors
///
/// Refusals 1 to 11 with their places, then 19, 17.
pub fn literals(text: &[u8]) -> Result<Literals, Refused> {
    of_this_version()?;
    let mut bytes = vec![0u8; BYTES];
    let mut lengths = vec![0u16; COUNT];
    // SAFETY: the three slices are good for their lengths, and they do not overlap.
    let r = unsafe {
        raw::tm_literals(
            text.as_ptr(),
            text.len(),
            bytes.as_mut_ptr(),
            bytes.len(),
            lengths.as_mut_ptr(),
            lengths.len(),
        )
    };
    refused(r.refusal, r.place, text)?;
    let lengths = &lengths[..within(r.count, COUNT)];
    let mut rest = &bytes[..within(lengths.iter().map(|&n| u64::from(n)).sum(), BYTES)];
    let literals = lengths
        .iter()
        .map(|&n| {
            let (one, after) = rest.split_at(usize::from(n));
            rest = after;
            one.to_vec()
        })
        .collect();
    Ok(Literals { literals, rank: r.rank, reached: within(r.reached, text.len()) })
}

/// As [`literals`], and refuses what follows the closing brace and its blanks.
///
/// # Errors
///
/// As [`literals`], then [`Refusal::Leftover`](crate::Refusal::Leftover) at the first byte that follows.
pub fn literals_strict(text: &[u8]) -> Result<Literals, Refused> {
    let picked = literals(text)?;
    nothing_after(text, picked.reached)?;
    Ok(picked)
}
