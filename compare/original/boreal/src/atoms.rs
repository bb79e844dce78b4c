//! A stand-in for the original's atoms: the same names with document 01's score.
//!
//! Demand 2 compares literals under our score, so this one module is not the original's.

pub const ATOM_SIZE: usize = 4;

/// 10 for the five bytes that files are full of, 20 for the others.
fn byte_score(b: u8) -> u32 {
    if matches!(b, 0x00 | 0x20 | 0x90 | 0xCC | 0xFF) { 10 } else { 20 }
}

/// The best sum over four successive bytes, or over all bytes of a shorter literal.
pub fn atom_quality_from_literal(lit: &[u8]) -> u32 {
    let sum = |part: &[u8]| part.iter().map(|b| byte_score(*b)).sum();
    if lit.len() <= ATOM_SIZE {
        sum(lit)
    } else {
        lit.windows(ATOM_SIZE).map(sum).max().unwrap_or(0)
    }
}
