//! What the program gate_checkings must write: a side's answers to the lines of
//! crates/gate_checkings/data/programs, and the third reading's where that side has none.

use std::fmt::Write;

use crate::model;
use crate::pools::{filled, rest};
use crate::sample::{found, lines};
use crate::sides::{Answer, Side, Window, hex};

/// How much of a line is shown.
const SHOWN: usize = 64;

/// A haystack in hex, the bounds of a window, and node words in hex; a line that begins with `#` is
/// a heading.
struct Case {
    hay: Vec<u8>,
    start: usize,
    end: usize,
    words: Vec<u64>,
}

fn case(line: &[u8]) -> Case {
    let mut columns = std::str::from_utf8(line).expect("hex and numbers").split(' ');
    let mut next = || columns.next().expect("a haystack and the bounds of a window");
    let hay = hex(next());
    let [start, end] = [next(), next()].map(|bound| bound.parse().expect("a number"));
    let words = columns.map(|w| u64::from_str_radix(w, 16).expect("hex")).collect();
    Case { hay, start, end, words }
}

/// The mirror's answer, with what it leaves in a pool of so many words.
fn mirror(out: &mut String, words: &[u64], lent: usize) {
    let mirrored = model::SIDE.mirror.and_then(|f| f(words)).expect("every program is answered");
    let mut pools = filled::<u64>(&[lent]);
    let answer = model::into_pools(&mut pools, model::NODE_POOL, mirrored.map(|m| vec![m]));
    let used = match answer {
        Ok(counts) => {
            write!(out, " {}", counts[0]).unwrap();
            counts[0]
        }
        Err(refusal) => {
            write!(out, " refused {}", refusal.number).unwrap();
            0
        }
    };
    write!(out, " {}", rest(&pools[0], used, 512)).unwrap();
    pools[0][..used].iter().for_each(|w| write!(out, " {w:x}").unwrap());
}

/// Whether the side and the document agree, where both answer.
fn agrees<T: PartialEq>(one: &Option<Answer<T>>, other: &Option<Answer<T>>) -> bool {
    one.is_none() || other.is_none() || one == other
}

/// A line, shown, and the answers to it; None where the side and document 01 differ.
pub fn answers(line: &[u8], by: &Side) -> Option<Vec<u8>> {
    if line.starts_with(b"#") {
        return Some([line, b"\n"].concat());
    }
    let case = case(line);
    let (words, w) = (&case.words, Window { hay: &case.hay, start: case.start, end: case.end });
    let (forward, reverse) = (model::forward(words, w), model::reverse(words, w));
    let (said_forward, said_reverse) =
        (by.forward.and_then(|f| f(words, w)), by.reverse.and_then(|f| f(words, w)));
    if !agrees(&said_forward, &forward) || !agrees(&said_reverse, &reverse) {
        return None;
    }
    let forward = said_forward.or(forward);
    let mut out = String::from(if model::sound(words) { "sound" } else { "unsound" });
    out.push_str("\nforward");
    found(&mut out, forward);
    out.push_str("\nleft ");
    if let Some(forward) = &forward {
        model::left(forward, w).iter().for_each(|b| write!(out, "{b:02X}").unwrap());
    }
    out.push_str("\nreverse");
    found(&mut out, said_reverse.or(reverse));
    for (name, lent) in [("mirror", 516), ("short", 511)] {
        write!(out, "\n{name}").unwrap();
        mirror(&mut out, words, lent);
    }
    Some([&line[..line.len().min(SHOWN)], b"\n", out.as_bytes(), b"\n"].concat())
}

/// Writes the answers to a file of programs and windows; false if a side and document 01 differ.
pub fn checkings(path: &str, by: &Side) -> bool {
    let file = std::fs::read(path).expect("a file of programs and windows");
    let (mut bytes, mut good) = (Vec::new(), true);
    for line in lines(&file) {
        match answers(line, by) {
            Some(answers) => bytes.extend(answers),
            None => {
                eprintln!("answered otherwise than by document 01: {}", line.escape_ascii());
                good = false;
            }
        }
    }
    std::io::Write::write_all(&mut std::io::stdout(), &bytes).expect("standard output");
    good
}
