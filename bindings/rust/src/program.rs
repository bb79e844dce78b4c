use crate::refusal::{Refusal, Refused};
use crate::{NODE_POOL, broken, nothing_after, of_this_version, raw, refused, within};

/// A word of a program: kind + 2^8 * first + 2^24 * second, of a kind below 2^8 and two fields below 2^16. What they mean stands in include/tokenmarsh.h
/// at `tm_compile`, and which words are sound at `tm_sound`. So that some damage shows, what can't have been meant is not sound: a value with bits outside its mask, a
/// jump of 0, a branch without nodes. No compiled program has any of these, nor the mirror of a sound one.
///
/// ```
/// use tokenmarsh::{Forward, NodeWord, Pattern, Refusal};
///
/// // A mask, with its value and its bits.
/// let word: NodeWord = 1 + (0xA0 << 8) + (0xF0 << 24);
/// assert_eq!(Pattern::compile(b"{ A? }").unwrap().forward.words(), [word]);
/// // What is above the fields is 0 in a sound program.
/// assert_eq!(Forward::new(&[word + (1 << 40)]), Err(Refusal::Unsound));
/// // A value has only bits of its mask, also where they are negated.
/// assert_eq!(Forward::new(&[word + (0x01 << 8)]), Err(Refusal::Unsound));
/// // A jump is of 1 or more, and a branch has a node or more. A program may have none.
/// assert_eq!(Forward::new(&[3]), Err(Refusal::Unsound));
/// assert_eq!(Forward::new(&[6 + (1 << 8), 7]), Err(Refusal::Unsound));
/// assert!(Forward::new(&[]).is_ok());
/// ```
pub type NodeWord = u64;

/// Words that are a sound program: tested once, or written by a proved function that promises it.
#[derive(Clone, Debug, PartialEq, Eq, Hash)]
struct Sound(Box<[NodeWord]>);

impl Sound {
    fn tested(words: &[NodeWord]) -> Result<Self, Refusal> {
        of_this_version()?;
        if words.len() > NODE_POOL {
            return Err(Refusal::TooManyNodes);
        }
        // SAFETY: the slice is good for its length.
        if unsafe { raw::tm_sound(words.as_ptr(), words.len()) } == 1 {
            Ok(Self(words.into()))
        } else {
            Err(Refusal::Unsound)
        }
    }

    fn mirror(&self) -> Self {
        let mut pool: Vec<NodeWord> = vec![0; NODE_POOL];
        // SAFETY: both slices are good for their lengths, and they do not overlap.
        let r = unsafe { raw::tm_mirror(self.0.as_ptr(), self.0.len(), pool.as_mut_ptr(), pool.len()) };
        if r.refusal != 0 {
            broken(format_args!("{r:?}"));
        }
        Self(pool[..within(r.words, NODE_POOL)].into())
    }
}

/// The answer of a check, of a window with so many bytes. A sound program and a whole window are never refused.
fn found(r: raw::CheckResult, length: usize) -> Option<usize> {
    match (r.refusal, r.found, usize::try_from(r.offset)) {
        (0, 0, _) => None,
        (0, 1, Ok(offset)) if offset <= length => Some(offset),
        _ => broken(format_args!("{r:?}")),
    }
}

/// A sound program that is searched forward.
///
/// Its checks cannot be refused: the words are sound by construction, and a window is the slice that is searched. A program means something else
/// in the other direction, so there it cannot be searched:
///
/// ```compile_fail
/// let pattern = tokenmarsh::Pattern::compile(b"{ 61 62 }").unwrap();
/// pattern.forward.start(b"ab");
/// ```
#[derive(Clone, Debug, PartialEq, Eq, Hash)]
pub struct Forward(Sound);

impl Forward {
    /// A program of node words.
    ///
    /// # Errors
    ///
    /// 13 for more than 512 words, then 15 for words that are no sound program ([`NodeWord`]).
    pub fn new(words: &[NodeWord]) -> Result<Self, Refusal> {
        Sound::tested(words).map(Self)
    }

    /// Its node words.
    #[must_use]
    pub fn words(&self) -> &[NodeWord] {
        &self.0.0
    }

    /// Where the first choice ends that fits the window from its start.
    ///
    /// ```
    /// use tokenmarsh::Pattern;
    ///
    /// let pattern = Pattern::compile(b"{ (61|61 62) 63 }").unwrap();
    /// assert_eq!(pattern.forward.end(b"abcd"), Some(3));
    /// assert_eq!(pattern.forward.end(b"bcd"), None);
    /// ```
    #[must_use]
    pub fn end(&self, window: &[u8]) -> Option<usize> {
        let words = self.words();
        // SAFETY: both slices are good for their lengths.
        let r = unsafe { raw::tm_forward(words.as_ptr(), words.len(), window.as_ptr(), window.len(), 0, window.len()) };
        found(r, window.len())
    }

    /// What [`Forward::end`] leaves of the window, as a part of it; `None` if nothing fits.
    ///
    /// ```
    /// use tokenmarsh::Pattern;
    ///
    /// let pattern = Pattern::compile(b"{ 61 62 }").unwrap();
    /// assert_eq!(pattern.forward.tail(b"abc"), Some(&b"c"[..]));
    /// assert_eq!(pattern.forward.tail(b"ab"), Some(&b""[..]));
    /// assert_eq!(pattern.forward.tail(b"xy"), None);
    /// ```
    #[must_use]
    pub fn tail<'h>(&self, window: &'h [u8]) -> Option<&'h [u8]> {
        // Not by tm_tail: its answer is the same for no match, for a refusal and, in an empty window, for a match.
        self.end(window).map(|end| &window[end..])
    }

    /// The mirror: what it fits is what this program fits, read from its other side.
    #[must_use]
    pub fn mirror(&self) -> Reverse {
        Reverse(self.0.mirror())
    }
}

/// A sound program that is searched in reverse: its first node is the last of what it fits.
#[derive(Clone, Debug, PartialEq, Eq, Hash)]
pub struct Reverse(Sound);

impl Reverse {
    /// A program of node words.
    ///
    /// # Errors
    ///
    /// 13 for more than 512 words, then 15 for words that are no sound program ([`NodeWord`]).
    pub fn new(words: &[NodeWord]) -> Result<Self, Refusal> {
        Sound::tested(words).map(Self)
    }

    /// Its node words.
    #[must_use]
    pub fn words(&self) -> &[NodeWord] {
        &self.0.0
    }

    /// Where the first choice starts that fits the window up to its end.
    ///
    /// ```
    /// use tokenmarsh::Pattern;
    ///
    /// let pattern = Pattern::compile(b"{ 61 [0-2] 63 }").unwrap();
    /// assert_eq!(pattern.reverse.start(b"xabc"), Some(1));
    /// assert_eq!(pattern.reverse.start(b"xabcd"), None);
    /// ```
    #[must_use]
    pub fn start(&self, window: &[u8]) -> Option<usize> {
        let words = self.words();
        // SAFETY: both slices are good for their lengths.
        let r = unsafe { raw::tm_reverse(words.as_ptr(), words.len(), window.as_ptr(), window.len(), 0, window.len()) };
        found(r, window.len())
    }

    /// The mirror: what it fits is what this program fits, read from its other side.
    #[must_use]
    pub fn mirror(&self) -> Forward {
        Forward(self.0.mirror())
    }
}

/// A compiled pattern.
#[derive(Clone, Debug, PartialEq, Eq, Hash)]
pub struct Pattern {
    /// Fits exactly what the pattern matches.
    pub forward: Forward,
    /// Fits exactly these, read from their other side.
    pub reverse: Reverse,
    /// The offset in the text after the closing brace and its blanks; what follows is ignored.
    pub reached: usize,
}

impl Pattern {
    /// Compiles a hexadecimal string. What follows the closing brace and its blanks is ignored; [`Pattern::compile_strict`] refuses it.
    ///
    /// # Errors
    ///
    /// Refusals 1 to 11 with their places, then 12, 14, 13.
    pub fn compile(text: &[u8]) -> Result<Self, Refused> {
        of_this_version()?;
        let mut forward: Vec<NodeWord> = vec![0; NODE_POOL];
        let mut reverse: Vec<NodeWord> = vec![0; NODE_POOL];
        // SAFETY: the three slices are good for their lengths, and they do not overlap.
        let r = unsafe {
            raw::tm_compile(
                text.as_ptr(),
                text.len(),
                forward.as_mut_ptr(),
                forward.len(),
                reverse.as_mut_ptr(),
                reverse.len(),
            )
        };
        refused(r.refusal, r.place, text)?;
        Ok(Self {
            forward: Forward(Sound(forward[..within(r.forward, NODE_POOL)].into())),
            reverse: Reverse(Sound(reverse[..within(r.reverse, NODE_POOL)].into())),
            reached: within(r.reached, text.len()),
        })
    }

    /// As [`Pattern::compile`], and refuses what follows the closing brace and its blanks: take patterns of others this way.
    ///
    /// ```
    /// use tokenmarsh::Pattern;
    ///
    /// let text = b"{ 4D 5A } 90 00 }";
    /// assert_eq!(Pattern::compile(text).unwrap().reached, 10);
    /// let refused = Pattern::compile_strict(text).unwrap_err();
    /// assert_eq!(refused.to_string(), "refused at 10: text after the closing brace: expected nothing after the '}' at 8, found '9'");
    /// ```
    ///
    /// # Errors
    ///
    /// As [`Pattern::compile`], then [`Refusal::Leftover`] at the first byte that follows.
    pub fn compile_strict(text: &[u8]) -> Result<Self, Refused> {
        let pattern = Self::compile(text)?;
        nothing_after(text, pattern.reached)?;
        Ok(pattern)
    }
}
