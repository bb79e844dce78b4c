//! Byte patterns in YARA's hexadecimal strings, read, compiled, searched and picked from by proved code.
//!
//! The work is done by libtokenmarsh.a, a library whose every function is proved to meet its contract; this crate is a thin and safe layer over
//! its C functions. What the types rule out needs no test at run time: a program is sound and has one direction ([`Forward`],
//! [`Reverse`]), and a window is a slice. The words of a program are [`NodeWord`]s.
//!
//! A text that is refused is an error that says what was expected, what stands there and where ([`Refused`]). What follows a pattern's closing brace is
//! ignored; [`Pattern::compile_strict`] refuses it. A library of another version is an error too, and an answer that no library of this version gives
//! is a panic.
//!
//! ```
//! use tokenmarsh::Pattern;
//!
//! // [4-16] takes sixteen.
//! let pattern = Pattern::compile(b"{ F4 [4-16] B4 }").unwrap();
//! let mut bytes = vec![0u8; 18];
//! bytes[0] = 0xF4;
//! bytes[17] = 0xB4;
//! assert_eq!(pattern.forward.end(&bytes), Some(18));
//! assert_eq!(pattern.reverse.start(&bytes), Some(0));
//! ```
//!
//! # Searching a file
//!
//! A check is anchored: [`Forward::end`] tells of a match that starts with the window's first byte, [`Reverse::start`] of one that ends with its last.
//! To search a file, look for the [`literals`] first and check about these; `examples/find.rs` does so.
//!
//! # Stack and time
//!
//! Figures are those of an older toolchain. A call was seen to take up to 73,872 bytes of stack. Rust's own threads have 2 MiB; if you give one less, 128 KiB are enough.
//!
//! A check tries the lengths of a range one after another, so that ranges multiply its time: `41 [0-255]` once, twice, three and four times, and then `42`, took
//! 3 µs, 0.3 ms, 70 ms and 14.7 s at the first of 4,096 bytes 41, and `41 [0-65535]` twice some 30 s at the first of 200,000. It ends, but nothing ends
//! it sooner: bound the ranges of patterns that others write. [`literals`] takes up to some milliseconds, all else microseconds.

#![warn(missing_docs, clippy::pedantic)]
#![allow(clippy::cast_possible_truncation)]

mod literals;
mod messages;
mod program;
#[allow(missing_docs)]
pub mod raw;
mod refusal;
mod tokens;

use std::fmt::Arguments;

pub use literals::{Literals, literals, literals_strict};
pub use program::{Forward, NodeWord, Pattern, Reverse};
pub use refusal::{Refusal, Refused};
pub use tokens::{Mask, Token, Tokens, read, read_strict};

/// The longest text that is read.
pub const TEXT_LIMIT: usize = 4096;
/// The words of a token pool, and the most nodes of a program.
const TOKEN_POOL: usize = 4096;
const NODE_POOL: usize = 512;

/// This crate's version as `tm_version` counts.
const VERSION: u32 = 65536 * decimal(env!("CARGO_PKG_VERSION_MAJOR"))
    + 256 * decimal(env!("CARGO_PKG_VERSION_MINOR"))
    + decimal(env!("CARGO_PKG_VERSION_PATCH"));

const fn decimal(digits: &str) -> u32 {
    let digits = digits.as_bytes();
    let (mut number, mut at) = (0, 0);
    while at < digits.len() {
        number = 10 * number + (digits[at] - b'0') as u32;
        at += 1;
    }
    number
}

/// Refuses a library of another version, whose answers would be misread. Every value of this crate comes from a call that asks this first.
fn of_this_version() -> Result<(), Refusal> {
    // SAFETY: it takes nothing.
    match unsafe { raw::tm_version() } {
        VERSION => Ok(()),
        other => Err(Refusal::OtherVersion(other)),
    }
}

/// A refusal's number as a result. Only 0 is none.
fn refused(number: u32, place: u64, text: &[u8]) -> Result<(), Refused> {
    if number == 0 {
        return Ok(());
    }
    let refusal = Refusal::from_number(number).unwrap_or(Refusal::Unknown(number));
    Err(Refused::new(refusal, place as usize, text))
}

/// Refuses what follows a pattern.
fn nothing_after(text: &[u8], reached: usize) -> Result<(), Refused> {
    if reached < text.len() { Err(Refused::new(Refusal::Leftover, reached, text)) } else { Ok(()) }
}

/// Ends a call that has an answer which no library of this version gives. To go on would be to guess, and a scanner that guesses waves files through.
#[cold]
fn broken(answer: Arguments<'_>) -> ! {
    panic!("libtokenmarsh broke its contract: {answer}")
}

/// A number that the library answers, which is so much at most.
fn within(number: u64, most: usize) -> usize {
    match usize::try_from(number) {
        Ok(number) if number <= most => number,
        _ => broken(format_args!("{number} where {most} is the most")),
    }
}
