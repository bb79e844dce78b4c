//! A stand-in: of the regular expressions, only what the node builder and the visitors name.

#[derive(Clone, Copy, Debug, PartialEq, Eq)]
pub enum AssertionKind {
    StartLine,
    EndLine,
    WordBoundary,
    NonWordBoundary,
}

#[derive(Clone, Debug, PartialEq, Eq)]
pub enum RepetitionKind {
    ZeroOrOne,
    ZeroOrMore,
    OneOrMore,
    Range(RepetitionRange),
}

#[derive(Clone, Debug, PartialEq, Eq)]
pub enum RepetitionRange {
    Exactly(u32),
    AtLeast(u32),
    Bounded(u32, u32),
}
