use super::error::{ErrorKind, ParseError};
use super::{Err, IResult, Input, Parser};

/// The parser again and again from `input` on, until its first error; a turn that reads nothing
/// is an error of the list.
fn rest_of_list<I, F>(
    parser: &mut F,
    mut input: I,
    mut found: Vec<F::Output>,
    kind: ErrorKind,
) -> IResult<I, Vec<F::Output>, F::Error>
where
    I: Input,
    F: Parser<I>,
{
    loop {
        match parser.parse(input.clone()) {
            Err(Err::Error(_)) => return Ok((input, found)),
            Err(e) => return Err(e),
            Ok((rest, o)) => {
                if rest.input_len() == input.input_len() {
                    return Err(Err::Error(F::Error::from_error_kind(input, kind)));
                }
                input = rest;
                found.push(o);
            }
        }
    }
}

pub fn many0<I, F>(
    mut parser: F,
) -> impl Parser<I, Output = Vec<<F as Parser<I>>::Output>, Error = <F as Parser<I>>::Error>
where
    I: Input,
    F: Parser<I>,
{
    move |input: I| rest_of_list(&mut parser, input, Vec::new(), ErrorKind::Many0)
}

pub fn many1<I, F>(
    mut parser: F,
) -> impl Parser<I, Output = Vec<<F as Parser<I>>::Output>, Error = <F as Parser<I>>::Error>
where
    I: Input,
    F: Parser<I>,
{
    move |input: I| match parser.parse(input.clone()) {
        Err(Err::Error(e)) => Err(Err::Error(F::Error::append(input, ErrorKind::Many1, e))),
        Err(e) => Err(e),
        Ok((rest, first)) => rest_of_list(&mut parser, rest, vec![first], ErrorKind::Many1),
    }
}

pub fn separated_list1<I, E: ParseError<I>, F, G>(
    mut separator: G,
    mut parser: F,
) -> impl Parser<I, Output = Vec<<F as Parser<I>>::Output>, Error = E>
where
    I: Input,
    F: Parser<I, Error = E>,
    G: Parser<I, Error = E>,
{
    move |input: I| {
        let (mut input, first) = parser.parse(input)?;
        let mut found = vec![first];
        loop {
            let after = match separator.parse(input.clone()) {
                Err(Err::Error(_)) => return Ok((input, found)),
                Err(e) => return Err(e),
                Ok((after, _)) => after,
            };
            // A separator with nothing behind it is given back.
            match parser.parse(after) {
                Err(Err::Error(_)) => return Ok((input, found)),
                Err(e) => return Err(e),
                Ok((rest, o)) => {
                    if rest.input_len() == input.input_len() {
                        let kind = ErrorKind::SeparatedList;
                        return Err(Err::Error(E::from_error_kind(input, kind)));
                    }
                    input = rest;
                    found.push(o);
                }
            }
        }
    }
}
