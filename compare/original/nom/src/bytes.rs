pub mod complete {
    use crate::error::{ErrorKind, ParseError};
    use crate::{Compare, CompareResult, Err, FindSubstring, Input, Parser};

    pub fn tag<T, I, E: ParseError<I>>(tag: T) -> impl Parser<I, Output = I, Error = E>
    where
        I: Input + Compare<T>,
        T: Input + Clone,
    {
        move |input: I| match input.compare(tag.clone()) {
            CompareResult::Ok => {
                let (rest, found) = input.take_split(tag.input_len());
                Ok((rest, found))
            }
            _ => Err(Err::Error(E::from_error_kind(input, ErrorKind::Tag))),
        }
    }

    pub fn take_until<T, I, E: ParseError<I>>(tag: T) -> impl Parser<I, Output = I, Error = E>
    where
        I: Input + FindSubstring<T>,
        T: Clone,
    {
        move |input: I| match input.find_substring(tag.clone()) {
            Some(at) => Ok(input.take_split(at)),
            None => Err(Err::Error(E::from_error_kind(input, ErrorKind::TakeUntil))),
        }
    }
}
