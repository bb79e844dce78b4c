//! The input traits at `&str`, which the parser's own input hands on to.

use super::{Compare, CompareResult, Err, FindSubstring, IResult, Input, Needed, Offset};
use crate::error::{ErrorKind, ParseError};

impl<'a> Input for &'a str {
    type Item = char;
    type Iter = std::str::Chars<'a>;
    type IterIndices = std::str::CharIndices<'a>;

    fn input_len(&self) -> usize {
        self.len()
    }

    fn take(&self, index: usize) -> Self {
        &self[..index]
    }

    fn take_from(&self, index: usize) -> Self {
        &self[index..]
    }

    fn take_split(&self, index: usize) -> (Self, Self) {
        (&self[index..], &self[..index])
    }

    fn position<P>(&self, predicate: P) -> Option<usize>
    where
        P: Fn(char) -> bool,
    {
        self.find(predicate)
    }

    fn iter_elements(&self) -> Self::Iter {
        self.chars()
    }

    fn iter_indices(&self) -> Self::IterIndices {
        self.char_indices()
    }

    fn slice_index(&self, count: usize) -> Result<usize, Needed> {
        let mut ends = self.char_indices().map(|(at, _)| at).chain([self.len()]);
        ends.nth(count).ok_or(Needed::Unknown)
    }

    fn split_at_position<P, E: ParseError<Self>>(&self, predicate: P) -> IResult<Self, Self, E>
    where
        P: Fn(char) -> bool,
    {
        match self.find(predicate) {
            Some(at) => Ok(self.take_split(at)),
            None => Err(Err::Incomplete(Needed::new(1))),
        }
    }

    fn split_at_position1<P, E: ParseError<Self>>(
        &self,
        predicate: P,
        e: ErrorKind,
    ) -> IResult<Self, Self, E>
    where
        P: Fn(char) -> bool,
    {
        match self.find(predicate) {
            Some(0) => Err(Err::Error(E::from_error_kind(self, e))),
            Some(at) => Ok(self.take_split(at)),
            None => Err(Err::Incomplete(Needed::new(1))),
        }
    }

    fn split_at_position_complete<P, E: ParseError<Self>>(
        &self,
        predicate: P,
    ) -> IResult<Self, Self, E>
    where
        P: Fn(char) -> bool,
    {
        Ok(self.take_split(self.find(predicate).unwrap_or(self.len())))
    }

    fn split_at_position1_complete<P, E: ParseError<Self>>(
        &self,
        predicate: P,
        e: ErrorKind,
    ) -> IResult<Self, Self, E>
    where
        P: Fn(char) -> bool,
    {
        match self.find(predicate).unwrap_or(self.len()) {
            0 => Err(Err::Error(E::from_error_kind(self, e))),
            at => Ok(self.take_split(at)),
        }
    }
}

impl<'b> Compare<&'b str> for &str {
    fn compare(&self, t: &'b str) -> CompareResult {
        prefix(self.bytes(), t.bytes())
    }

    fn compare_no_case(&self, t: &'b str) -> CompareResult {
        let fold = |b: u8| b.to_ascii_lowercase();
        prefix(self.bytes().map(fold), t.bytes().map(fold))
    }
}

fn prefix(mut have: impl Iterator<Item = u8>, want: impl Iterator<Item = u8>) -> CompareResult {
    for w in want {
        match have.next() {
            Some(h) if h == w => (),
            Some(_) => return CompareResult::Error,
            None => return CompareResult::Incomplete,
        }
    }
    CompareResult::Ok
}

impl<'b> FindSubstring<&'b str> for &str {
    fn find_substring(&self, substr: &'b str) -> Option<usize> {
        self.find(substr)
    }
}

impl Offset for &str {
    fn offset(&self, second: &Self) -> usize {
        second.as_ptr() as usize - self.as_ptr() as usize
    }
}

impl Offset for str {
    fn offset(&self, second: &Self) -> usize {
        second.as_ptr() as usize - self.as_ptr() as usize
    }
}
