//! What the listing program must write for a text.

use std::fmt::Write;

use crate::model;

/// As much of its input as the program reads, and the bytes that it lends for literals.
const INPUT: usize = 4097;
const BYTES: usize = 32_768;

fn node(word: u64) -> String {
    let (kind, a, b) = model::fields(word);
    match kind {
        0 => format!("byte {a:02X}"),
        1 => format!("mask {a:02X} {b:02X}"),
        2 => format!("not {a:02X} {b:02X}"),
        3 => format!("jump {a}"),
        4 => format!("range {a} {b}"),
        5 => "dot".into(),
        6 => format!("alt {a}"),
        _ => format!("branch {a}"),
    }
}

pub fn listing(input: &[u8]) -> String {
    let text = &input[..input.len().min(INPUT)];
    let read = model::tokens(text).map(|(list, _)| list);
    let (list, programs) = match read.and_then(|list| Ok((model::programs(&list)?, list))) {
        Ok((programs, list)) => (list, programs),
        Err(refusal) => return format!("refused {} at {}\n", refusal.number, refusal.place),
    };
    let mut out = String::new();
    for (name, words) in [("forward", programs.forward), ("reverse", programs.reverse)] {
        let _ = writeln!(out, "{name} {}", words.len());
        words.iter().for_each(|w| {
            let _ = writeln!(out, "{}", node(*w));
        });
    }
    match model::pick(&list) {
        Err(refusal) => {
            let _ = writeln!(out, "literals refused {}", refusal.number);
        }
        Ok(p) if p.literals.iter().map(Vec::len).sum::<usize>() > BYTES => {
            out.push_str("literals refused 18\n");
        }
        Ok(p) => {
            let _ = writeln!(out, "literals {} rank {}", p.literals.len(), p.rank);
            for literal in &p.literals {
                let hex: String = literal.iter().map(|b| format!("{b:02X}")).collect();
                let _ = writeln!(out, "{hex}");
            }
        }
    }
    out
}
