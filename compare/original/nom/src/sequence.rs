use super::Parser;
use super::error::ParseError;

pub fn preceded<I, O, E: ParseError<I>, F, G>(
    mut first: F,
    mut second: G,
) -> impl Parser<I, Output = O, Error = E>
where
    F: Parser<I, Error = E>,
    G: Parser<I, Output = O, Error = E>,
{
    move |input: I| {
        let (input, _) = first.parse(input)?;
        second.parse(input)
    }
}

pub fn terminated<I, O, E: ParseError<I>, F, G>(
    mut first: F,
    mut second: G,
) -> impl Parser<I, Output = O, Error = E>
where
    F: Parser<I, Output = O, Error = E>,
    G: Parser<I, Error = E>,
{
    move |input: I| {
        let (input, o) = first.parse(input)?;
        let (input, _) = second.parse(input)?;
        Ok((input, o))
    }
}

pub fn delimited<I, O, E: ParseError<I>, F, G, H>(
    mut first: F,
    mut second: G,
    mut third: H,
) -> impl Parser<I, Output = O, Error = E>
where
    F: Parser<I, Error = E>,
    G: Parser<I, Output = O, Error = E>,
    H: Parser<I, Error = E>,
{
    move |input: I| {
        let (input, _) = first.parse(input)?;
        let (input, o) = second.parse(input)?;
        let (input, _) = third.parse(input)?;
        Ok((input, o))
    }
}
