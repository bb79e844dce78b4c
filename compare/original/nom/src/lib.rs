//! A stand-in for nom 8, written from its documentation.
//!
//! No crate can be fetched where the comparison runs, and the parser files must compile
//! unchanged, so this has the traits and combinators which those files name and nothing else.
//! What decides the comparison is kept as documented: which of an `alt`'s errors is handed out
//! (the last one), where a list ends, and which inputs an error carries.

use std::num::NonZeroUsize;

pub mod branch;
pub mod bytes;
pub mod character;
pub mod combinator;
pub mod error;
pub mod multi;
pub mod sequence;
mod text;

use error::ParseError;

#[derive(Debug, Clone, Copy, PartialEq, Eq)]
pub enum Needed {
    Unknown,
    Size(NonZeroUsize),
}

impl Needed {
    pub fn new(size: usize) -> Self {
        NonZeroUsize::new(size).map_or(Needed::Unknown, Needed::Size)
    }
}

#[derive(Debug, Clone, PartialEq)]
pub enum Err<E> {
    Incomplete(Needed),
    Error(E),
    Failure(E),
}

pub type IResult<I, O, E = (I, error::ErrorKind)> = Result<(I, O), Err<E>>;

/// Ends a parse: an error and a failure are the same to the caller.
pub trait Finish<I, O, E> {
    fn finish(self) -> Result<(I, O), E>;
}

impl<I, O, E> Finish<I, O, E> for IResult<I, O, E> {
    fn finish(self) -> Result<(I, O), E> {
        match self {
            Ok(res) => Ok(res),
            Err(Err::Error(e) | Err::Failure(e)) => Err(e),
            Err(Err::Incomplete(_)) => panic!("only complete parsers can be finished"),
        }
    }
}

pub trait Parser<I> {
    type Output;
    type Error: ParseError<I>;

    fn parse(&mut self, input: I) -> IResult<I, Self::Output, Self::Error>;
}

impl<I, O, E: ParseError<I>, F> Parser<I> for F
where
    F: FnMut(I) -> IResult<I, O, E>,
{
    type Output = O;
    type Error = E;

    fn parse(&mut self, input: I) -> IResult<I, O, E> {
        self(input)
    }
}

impl<I, E: ParseError<I>, A, B, C> Parser<I> for (A, B, C)
where
    A: Parser<I, Error = E>,
    B: Parser<I, Error = E>,
    C: Parser<I, Error = E>,
{
    type Output = (A::Output, B::Output, C::Output);
    type Error = E;

    fn parse(&mut self, input: I) -> IResult<I, Self::Output, E> {
        let (input, a) = self.0.parse(input)?;
        let (input, b) = self.1.parse(input)?;
        let (input, c) = self.2.parse(input)?;
        Ok((input, (a, b, c)))
    }
}

pub trait AsChar: Copy {
    fn as_char(self) -> char;
}

impl AsChar for char {
    fn as_char(self) -> char {
        self
    }
}

pub trait Input: Clone + Sized {
    type Item;
    type Iter: Iterator<Item = Self::Item>;
    type IterIndices: Iterator<Item = (usize, Self::Item)>;

    fn input_len(&self) -> usize;
    fn take(&self, index: usize) -> Self;
    fn take_from(&self, index: usize) -> Self;
    fn take_split(&self, index: usize) -> (Self, Self);
    fn position<P>(&self, predicate: P) -> Option<usize>
    where
        P: Fn(Self::Item) -> bool;
    fn iter_elements(&self) -> Self::Iter;
    fn iter_indices(&self) -> Self::IterIndices;
    fn slice_index(&self, count: usize) -> Result<usize, Needed>;
    fn split_at_position<P, E: ParseError<Self>>(&self, predicate: P) -> IResult<Self, Self, E>
    where
        P: Fn(Self::Item) -> bool;
    fn split_at_position1<P, E: ParseError<Self>>(
        &self,
        predicate: P,
        e: error::ErrorKind,
    ) -> IResult<Self, Self, E>
    where
        P: Fn(Self::Item) -> bool;
    fn split_at_position_complete<P, E: ParseError<Self>>(
        &self,
        predicate: P,
    ) -> IResult<Self, Self, E>
    where
        P: Fn(Self::Item) -> bool;
    fn split_at_position1_complete<P, E: ParseError<Self>>(
        &self,
        predicate: P,
        e: error::ErrorKind,
    ) -> IResult<Self, Self, E>
    where
        P: Fn(Self::Item) -> bool;
}

#[derive(Debug, Clone, Copy, PartialEq, Eq)]
pub enum CompareResult {
    Ok,
    Incomplete,
    Error,
}

pub trait Compare<T> {
    fn compare(&self, t: T) -> CompareResult;
    fn compare_no_case(&self, t: T) -> CompareResult;
}

pub trait FindSubstring<T> {
    fn find_substring(&self, substr: T) -> Option<usize>;
}

pub trait Offset {
    fn offset(&self, second: &Self) -> usize;
}
