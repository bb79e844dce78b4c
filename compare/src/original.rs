//! The original as a side.

use boreal::hex::{NotByte, tree};
use boreal::matcher::literals::seam::pick;
use boreal::matcher::validator::simple::seam::Program;
use boreal_parser::hex_string::{Mask, Token};

use crate::model;
use crate::sides::{Answer, Compiled, Found, Picked, Read, Refusal, Side, Tok, Window, entries};
use crate::tally::LeftOut;

pub const SIDE: Side = Side {
    name: "original",
    read: Some(read),
    compile: Some(compile),
    literals: Some(literals),
    sound: None,
    mirror: None,
    forward: Some(forward),
    reverse: Some(reverse),
};

/// The original allows 30 list levels unless told otherwise; with eight its refusal of a ninth
/// can be compared too.
const LEVELS: u8 = 8;

fn token(token: &Token) -> Tok {
    let side = |mask: &Mask| match mask {
        Mask::Left => 0,
        Mask::Right => 1,
        Mask::All => 2,
    };
    match token {
        Token::Byte(b) => Tok::Byte(*b),
        Token::NotByte(b) => Tok::NotByte(*b),
        Token::MaskedByte(d, mask) => Tok::Masked(*d, side(mask)),
        Token::NotMaskedByte(d, mask) => Tok::NotMasked(*d, side(mask)),
        Token::Jump(jump) => Tok::Jump(jump.from, jump.to),
        Token::Alternatives(lists) => Tok::Alts(lists.iter().map(|l| list(l)).collect()),
    }
}

fn list(tokens: &[Token]) -> Vec<Tok> {
    tokens.iter().map(token).collect()
}

/// The original by itself: its own limit of levels, no domain, no refusal 17 or 19.
pub fn alone(text: &[u8]) {
    let Ok(text) = std::str::from_utf8(text) else {
        println!("    not text in UTF-8");
        return;
    };
    match boreal_parser::read(text, 30) {
        Err(r) => println!("    refused {} at {}", r.number, r.place),
        Ok((tokens, reached)) => {
            println!("    read     {:?}", Read { words: entries(&list(&tokens)), reached });
            for reverse in [false, true] {
                let built = Program::build(&tree(&tokens, NotByte::Mask), reverse);
                println!("    built    {:x?}", built.map(|p| p.words()));
            }
            for (not_byte, how) in [(NotByte::Class, "class"), (NotByte::Mask, "mask FF")] {
                let (rank, literals) = pick(&tree(&tokens, not_byte));
                println!("    literals {:?} (~XX as a {how})", Picked { rank, literals });
            }
        }
    }
}

/// Both checks, also of unsound programs and on wrong windows: the answers in words.
pub fn raw(words: &[u64], w: Window) -> (String, String) {
    let Some(program) = Program::new(words) else {
        let why = "a word has no node, or does not fit its fields";
        return (why.into(), why.into());
    };
    let told = |f: &dyn Fn() -> Option<usize>| match std::panic::catch_unwind(
        std::panic::AssertUnwindSafe(f),
    ) {
        Ok(answer) => format!("{:?}", found(answer)),
        Err(_) => "panic".into(),
    };
    let forward = told(&|| program.forward(w.hay, w.start, w.end));
    (forward, told(&|| program.reverse(w.hay, w.start, w.end)))
}

/// None outside the domain of comparison.
fn parsed(text: &[u8]) -> Option<Answer<(Vec<Token>, usize)>> {
    let text = std::str::from_utf8(text).ok()?;
    if text.len() > 4096 || text.contains('/') {
        return None;
    }
    // A 513th token is refused by the document alone.
    if matches!(model::tokens(text.as_bytes()), Err(Refusal { number: 11, .. })) {
        return None;
    }
    Some(
        boreal_parser::read(text, LEVELS).map_err(|r| Refusal { number: r.number, place: r.place }),
    )
}

fn read(text: &[u8]) -> Option<Answer<Read>> {
    let answer = parsed(text)?;
    Some(answer.map(|(tokens, reached)| Read { words: entries(&list(&tokens)), reached }))
}

/// Whether a text that is read needs wider fields than the original's, by its tokens alone.
pub fn wide(text: &[u8]) -> bool {
    matches!(parsed(text), Some(Ok((tokens, _))) if !model::narrow(&list(&tokens)))
}

/// Why the original is not asked about a program on a window that it could be asked about.
pub fn left_out(words: &[u64], w: Window) -> Option<LeftOut> {
    if !within(w) {
        None
    } else if model::unsound_since_08(words) {
        Some(LeftOut::Since08)
    } else if model::sound(words) && !model::narrow_words(words) {
        Some(LeftOut::Fields)
    } else {
        None
    }
}

/// Both checks of a program that is 15 since Req 08, where the fields suffice.
pub fn since_08(words: &[u64], w: Window) -> Option<[Found; 2]> {
    let program = if model::narrow_words(words) { Program::new(words) } else { None }?;
    let forward = program.forward(w.hay, w.start, w.end);
    Some([forward, program.reverse(w.hay, w.start, w.end)].map(found))
}

/// None also where the original's fields do not suffice, whatever it builds there, and where its
/// builder declines: it caps combinations at 64.
fn compile(text: &[u8]) -> Option<Answer<Compiled>> {
    match parsed(text)? {
        Err(refusal) => Some(Err(refusal)),
        Ok((tokens, _)) if !model::narrow(&list(&tokens)) => None,
        Ok((tokens, _)) => build(&tokens).map(Ok),
    }
}

/// What the original builds by itself, also where its fields do not suffice.
pub fn built(text: &[u8]) -> Option<Compiled> {
    build(&parsed(text)?.ok()?.0)
}

fn build(tokens: &[Token]) -> Option<Compiled> {
    let hir = tree(tokens, NotByte::Mask);
    let forward = Program::build(&hir, false)?.words();
    let reverse = Program::build(&hir, true)?.words();
    Some(Compiled { forward, reverse })
}

/// None where the document refuses by 17 or 19.
fn literals(text: &[u8]) -> Option<Answer<Picked>> {
    match parsed(text)? {
        Err(refusal) => Some(Err(refusal)),
        Ok((tokens, _)) => {
            model::pick(&list(&tokens)).ok()?;
            let (rank, literals) = pick(&tree(&tokens, NotByte::Class));
            Some(Ok(Picked { rank, literals }))
        }
    }
}

fn found(at: Option<usize>) -> Found {
    at.map_or(Found::Nothing, Found::At)
}

fn within(w: Window) -> bool {
    w.start <= w.end && w.end <= w.hay.len()
}

/// None for unsound programs and bad windows, where the original panics or means nothing, for programs
/// that are unsound since Req 08 alone, which it takes, and where its fields do not suffice.
fn program(words: &[u64], w: Window) -> Option<Program> {
    let asked = model::sound(words) && within(w) && model::narrow_words(words);
    if asked { Program::new(words) } else { None }
}

fn forward(words: &[u64], w: Window) -> Option<Answer<Found>> {
    Some(Ok(found(program(words, w)?.forward(w.hay, w.start, w.end))))
}

fn reverse(words: &[u64], w: Window) -> Option<Answer<Found>> {
    Some(Ok(found(program(words, w)?.reverse(w.hay, w.start, w.end))))
}
