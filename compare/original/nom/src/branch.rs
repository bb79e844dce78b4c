use super::error::{ErrorKind, ParseError};
use super::{Err, IResult, Parser};

pub struct Choice<T>(T);

/// The first parser of a tuple that does not answer with an error; a failure stops at once.
pub fn alt<T>(list: T) -> Choice<T> {
    Choice(list)
}

macro_rules! choice {
    ($first:ident $at0:tt $(, $name:ident $at:tt)*) => {
        impl<I: Clone, O, E: ParseError<I>, $first, $($name),*> Parser<I> for Choice<($first, $($name),*)>
        where
            $first: Parser<I, Output = O, Error = E>,
            $($name: Parser<I, Output = O, Error = E>),*
        {
            type Output = O;
            type Error = E;

            fn parse(&mut self, input: I) -> IResult<I, O, E> {
                let err = match (self.0).$at0.parse(input.clone()) {
                    Err(Err::Error(e)) => e,
                    res => return res,
                };
                $(
                    let err = match (self.0).$at.parse(input.clone()) {
                        Err(Err::Error(e)) => err.or(e),
                        res => return res,
                    };
                )*
                Err(Err::Error(E::append(input, ErrorKind::Alt, err)))
            }
        }
    };
}

choice!(A 0, B 1);
choice!(A 0, B 1, C 2);
choice!(A 0, B 1, C 2, D 3, F 4);
