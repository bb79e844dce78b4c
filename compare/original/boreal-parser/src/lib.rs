//! The original's hex-string reader, compiled as it is, and the door to it.
#![allow(dead_code)]

#[cfg(original)]
include!(concat!(env!("OUT_DIR"), "/laid.rs"));

pub mod regex;

/// The original's refusal: its kind as a number of document 01, and the start of its span.
#[derive(Clone, Copy, Debug, PartialEq, Eq)]
pub struct Refusal {
    pub number: u32,
    pub place: usize,
}

/// Reads a hex string with so many list levels allowed; answers the tokens and the offset reached.
#[cfg(original)]
pub fn read(text: &str, levels: u8) -> Result<(Vec<hex_string::Token>, usize), Refusal> {
    use nom::Finish;

    let params = types::Params::default().string_recursion_limit(levels);
    match hex_string::hex_string(types::Input::with_params(text, params)).finish() {
        Ok((rest, tokens)) => Ok((tokens, rest.get_position_offset())),
        Err(error) => Err(error::seam::refusal(&error)),
    }
}
