//! A stand-in for the original's step from tokens to the expression tree, which is not at hand.

use boreal_parser::hex_string::{Jump, Mask, Token};
use boreal_parser::regex::{RepetitionKind, RepetitionRange};

use crate::bitmaps::Bitmap;
use crate::regex::{Class, Hir};

/// What becomes of `~XX`. The literal picker reads every mask but 0F as the mask F0, so it is
/// handed a class of 255 bytes; the node builder takes no class, so it is handed the mask FF.
#[derive(Clone, Copy, PartialEq, Eq)]
pub enum NotByte {
    Class,
    Mask,
}

pub fn tree(tokens: &[Token], not_byte: NotByte) -> Hir {
    Hir::Concat(tokens.iter().map(|token| node(token, not_byte)).collect())
}

fn node(token: &Token, not_byte: NotByte) -> Hir {
    match token {
        Token::Byte(b) => Hir::Literal(*b),
        Token::NotByte(b) if not_byte == NotByte::Class => {
            let mut bitmap = Bitmap::new();
            bitmap.set(*b);
            bitmap.invert();
            Hir::Class(Class { bitmap })
        }
        Token::NotByte(b) => Hir::Mask { value: *b, mask: 0xFF, negated: true },
        Token::MaskedByte(digit, mask) => masked(*digit, mask, false),
        Token::NotMaskedByte(digit, mask) => masked(*digit, mask, true),
        Token::Jump(Jump { from, to }) => Hir::Repetition {
            hir: Box::new(Hir::Dot),
            kind: RepetitionKind::Range(match to {
                Some(to) => RepetitionRange::Bounded(*from, *to),
                None => RepetitionRange::AtLeast(*from),
            }),
            greedy: false,
        },
        Token::Alternatives(lists) => {
            let branches = lists.iter().map(|list| tree(list, not_byte)).collect();
            Hir::Group(Box::new(Hir::Alternation(branches)))
        }
    }
}

fn masked(digit: u8, mask: &Mask, negated: bool) -> Hir {
    match mask {
        Mask::Left => Hir::Mask { value: digit, mask: 0x0F, negated },
        Mask::Right => Hir::Mask { value: digit << 4, mask: 0xF0, negated },
        Mask::All => Hir::Dot,
    }
}
