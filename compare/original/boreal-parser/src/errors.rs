//! Below the original's errors: the numbers of document 01 for those of the hex-string reader.

use super::{Error, ErrorKind};
use crate::Refusal;

pub fn refusal(error: &Error) -> Refusal {
    let number = match &error.kind {
        ErrorKind::NomError(_) => 2,
        ErrorKind::StrToIntError(_) => 3,
        ErrorKind::JumpEmpty => 4,
        ErrorKind::JumpRangeInvalid { .. } => 5,
        ErrorKind::JumpAtBound => 6,
        ErrorKind::JumpUnboundedInAlternation => 7,
        ErrorKind::JumpTooBigInAlternation { .. } => 8,
        ErrorKind::CannotNegateMaskAll => 9,
        ErrorKind::HexStringTooDeep => 10,
        other => panic!("the hex-string reader has no such error: {other:?}"),
    };
    Refusal { number, place: error.span.start }
}
