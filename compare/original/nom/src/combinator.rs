use super::error::ParseError;
use super::{Err, Parser};

/// An error of the parser becomes a failure, which no `alt`, `opt` or list passes over.
pub fn cut<I, E: ParseError<I>, F>(
    mut parser: F,
) -> impl Parser<I, Output = <F as Parser<I>>::Output, Error = E>
where
    F: Parser<I, Error = E>,
{
    move |input: I| match parser.parse(input) {
        Err(Err::Error(e)) => Err(Err::Failure(e)),
        res => res,
    }
}

pub fn map<I, O, E: ParseError<I>, F, G>(
    mut parser: F,
    mut f: G,
) -> impl Parser<I, Output = O, Error = E>
where
    F: Parser<I, Error = E>,
    G: FnMut(<F as Parser<I>>::Output) -> O,
{
    move |input: I| {
        let (input, o) = parser.parse(input)?;
        Ok((input, f(o)))
    }
}

pub fn opt<I: Clone, E: ParseError<I>, F>(
    mut parser: F,
) -> impl Parser<I, Output = Option<<F as Parser<I>>::Output>, Error = E>
where
    F: Parser<I, Error = E>,
{
    move |input: I| match parser.parse(input.clone()) {
        Ok((rest, o)) => Ok((rest, Some(o))),
        Err(Err::Error(_)) => Ok((input, None)),
        Err(e) => Err(e),
    }
}

pub fn value<I, O: Clone, E: ParseError<I>, F>(
    val: O,
    mut parser: F,
) -> impl Parser<I, Output = O, Error = E>
where
    F: Parser<I, Error = E>,
{
    move |input: I| {
        let (input, _) = parser.parse(input)?;
        Ok((input, val.clone()))
    }
}
