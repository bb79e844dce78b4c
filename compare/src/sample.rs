//! The stored sample: what a side answers to the cases of crates/gate_rustsays/data/cases, in the
//! lines that the program gate_rustsays writes for the library's doors. The original's answers are
//! stored.

use std::fmt::Write;

use crate::model;
use crate::sides::{Answer, Compiled, Found, Picked, Read, Refusal, Side, Window, hex};

/// How much of a text is shown.
const SHOWN: usize = 64;

/// A haystack in hex, a blank and a text; a line that begins with `#` is a heading, and shown as it
/// is.
struct Case<'a> {
    hay: Vec<u8>,
    text: &'a [u8],
}

fn case(line: &[u8]) -> Case<'_> {
    let at = line.iter().position(|b| *b == b' ').expect("a haystack, a blank and a text");
    let spelt = std::str::from_utf8(&line[..at]).expect("hex");
    Case { hay: hex(spelt), text: &line[at + 1..] }
}

/// Why a case has no place in the sample: the side answers otherwise than document 01, or not at
/// all, or the original's fields can't hold what it compiles to.
fn stray(text: &[u8], by: &Side) -> Option<&'static str> {
    if by.read.and_then(|f| f(text)) != model::SIDE.read.and_then(|f| f(text)) {
        return Some("read otherwise, or outside the domain");
    }
    if model::tokens(text).is_ok_and(|(list, _)| !model::narrow(&list)) {
        return Some("the original's fields don't suffice");
    }
    if compiled(text, by) != model::SIDE.compile.and_then(|f| f(text)) {
        return Some("compiled otherwise");
    }
    let picked = by.literals.and_then(|f| f(text));
    let differs = picked.is_some() && picked != model::SIDE.literals.and_then(|f| f(text));
    differs.then_some("other literals")
}

/// The original's builder declines what is not simple: that is its 12.
fn compiled(text: &[u8], by: &Side) -> Option<Answer<Compiled>> {
    let built = by.compile.and_then(|f| f(text));
    Some(built.unwrap_or(Err(Refusal { number: 12, place: 0 })))
}

fn words<W: std::fmt::Display>(out: &mut String, name: &str, words: &[W]) {
    out.push_str(name);
    words.iter().for_each(|w| write!(out, " {w}").unwrap());
    out.push('\n');
}

fn refused(out: &mut String, refusal: Refusal) {
    writeln!(out, "refused {} at {}", refusal.number, refusal.place).unwrap();
}

type Check = fn(&[u64], Window) -> Option<Answer<Found>>;

/// A check's answer, after a blank.
pub fn found(out: &mut String, answer: Option<Answer<Found>>) {
    match answer {
        Some(Ok(Found::At(at))) => write!(out, " {at}").unwrap(),
        Some(Ok(Found::Nothing)) => out.push_str(" no"),
        Some(Err(refusal)) => write!(out, " refused {}", refusal.number).unwrap(),
        None => out.push_str(" unanswered"),
    }
}

fn checks(out: &mut String, name: &str, check: Option<Check>, program: &[u64], windows: &[Window]) {
    out.push_str(name);
    windows.iter().for_each(|w| found(out, check.and_then(|f| f(program, *w))));
    out.push('\n');
}

fn programs(out: &mut String, made: &Compiled, hay: &[u8], by: &Side) {
    let all = hay.len();
    let from: Vec<_> = (0..=all).map(|start| Window { hay, start, end: all }).collect();
    let to: Vec<_> = (0..=all).map(|end| Window { hay, start: 0, end }).collect();
    words(out, "forward", &made.forward);
    words(out, "reverse", &made.reverse);
    checks(out, "ends", by.forward, &made.forward, &from);
    checks(out, "starts", by.reverse, &made.reverse, &to);
}

fn picked(out: &mut String, picked: &Picked) {
    write!(out, "rank {} literals", picked.rank).unwrap();
    for literal in &picked.literals {
        out.push(' ');
        literal.iter().for_each(|b| write!(out, "{b:02X}").unwrap());
    }
    out.push('\n');
}

fn read(out: &mut String, case: &Case, read: &Read, by: &Side) {
    writeln!(out, "reached {}", read.reached).unwrap();
    words(out, "tokens", &read.words);
    match compiled(case.text, by) {
        Some(Ok(made)) => programs(out, &made, &case.hay, by),
        Some(Err(refusal)) => refused(out, refusal),
        None => unreachable!("declining is an answer"),
    }
    // Nothing where the document gives 17 or 19.
    if let Some(Ok(p)) = by.literals.and_then(|f| f(case.text)) {
        picked(out, &p);
    }
}

/// A line, shown, and a side's answers to it.
pub fn answers(line: &[u8], by: &Side) -> Vec<u8> {
    if line.starts_with(b"#") {
        return [line, b"\n"].concat();
    }
    let case = case(line);
    let mut out = String::new();
    match by.read.and_then(|f| f(case.text)) {
        Some(Ok(answer)) => read(&mut out, &case, &answer, by),
        Some(Err(refusal)) => refused(&mut out, refusal),
        None => unreachable!("strays are kept out"),
    }
    [&case.text[..case.text.len().min(SHOWN)], b"\n", out.as_bytes()].concat()
}

pub fn lines(file: &[u8]) -> impl Iterator<Item = &[u8]> {
    file.strip_suffix(b"\n").unwrap_or(file).split(|b| *b == b'\n')
}

/// Writes a side's answers to a file of cases; false if one has no place there.
pub fn sample(path: &str, by: &Side) -> bool {
    let cases = std::fs::read(path).expect("a file of cases");
    let (mut bytes, mut good) = (Vec::new(), true);
    for line in lines(&cases) {
        let why = if line.starts_with(b"#") { None } else { stray(case(line).text, by) };
        match why {
            None => bytes.extend(answers(line, by)),
            Some(why) => {
                let text = case(line).text.escape_ascii();
                eprintln!("no case for the sample, {why}: {text}");
                good = false;
            }
        }
    }
    std::io::Write::write_all(&mut std::io::stdout(), &bytes).expect("standard output");
    good
}
