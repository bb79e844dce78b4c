pub mod complete {
    use crate::error::{ErrorKind, ParseError};
    use crate::{AsChar, Err, IResult, Input, Parser};

    pub fn char<I, E: ParseError<I>>(c: char) -> impl Parser<I, Output = char, Error = E>
    where
        I: Input,
        <I as Input>::Item: AsChar,
    {
        move |input: I| match input.iter_elements().next() {
            Some(have) if have.as_char() == c => Ok((input.take_from(c.len_utf8()), c)),
            _ => Err(Err::Error(E::from_char(input, c))),
        }
    }

    pub fn digit1<T, E: ParseError<T>>(input: T) -> IResult<T, T, E>
    where
        T: Input,
        <T as Input>::Item: AsChar,
    {
        let other = |c: T::Item| !c.as_char().is_ascii_digit();
        input.split_at_position1_complete(other, ErrorKind::Digit)
    }

    pub fn multispace1<T, E: ParseError<T>>(input: T) -> IResult<T, T, E>
    where
        T: Input,
        <T as Input>::Item: AsChar,
    {
        let other = |c: T::Item| !matches!(c.as_char(), ' ' | '\t' | '\r' | '\n');
        input.split_at_position1_complete(other, ErrorKind::MultiSpace)
    }
}
