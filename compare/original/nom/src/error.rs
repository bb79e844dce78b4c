#[derive(Debug, Clone, Copy, PartialEq, Eq, Hash)]
pub enum ErrorKind {
    Alt,
    Char,
    Digit,
    HexDigit,
    IsNot,
    Many0,
    Many1,
    MultiSpace,
    SeparatedList,
    Tag,
    TakeUntil,
}

pub trait ParseError<I>: Sized {
    fn from_error_kind(input: I, kind: ErrorKind) -> Self;

    fn append(input: I, kind: ErrorKind, other: Self) -> Self;

    fn from_char(input: I, _: char) -> Self {
        Self::from_error_kind(input, ErrorKind::Char)
    }

    /// Of two errors of an `alt`, the later one stays.
    fn or(self, other: Self) -> Self {
        other
    }
}

impl<I> ParseError<I> for (I, ErrorKind) {
    fn from_error_kind(input: I, kind: ErrorKind) -> Self {
        (input, kind)
    }

    fn append(_: I, _: ErrorKind, other: Self) -> Self {
        other
    }
}
