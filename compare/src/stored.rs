//! A program by itself, which compare/faults.py compiles with a fault in the third reading: its
//! answers to everything that the gate stores, each after a line with the gate's program, the
//! answer's length and the input.
//!
//!     stored TOP    the folder of the repository

#![allow(dead_code)]

mod checkings;
mod listing;
mod model;
mod pools;
mod sample;
mod sides;

use std::io::Write;

/// How much of a text the program gate_replay shows, and how much of an input is named here.
const SHOWN: usize = 64;
const NAMED: usize = 100;

fn told(program: &str, input: &[u8], answer: &[u8]) {
    let input: String = input.escape_ascii().map(char::from).take(NAMED).collect();
    let head = format!("{program} {} {input}\n", answer.len());
    let mut out = std::io::stdout().lock();
    // Nothing is to be told to a reader who has seen enough.
    let _ = out.write_all(&[head.as_bytes(), answer].concat());
}

fn main() {
    let top = std::env::args().nth(1).expect("the folder of the repository");
    let file = |name: &str| std::fs::read(format!("{top}/crates/{name}")).expect("a stored file");
    for line in sample::lines(&file("gate_rustsays/data/cases")) {
        told("gate_rustsays", line, &sample::answers(line, &model::SIDE));
    }
    for text in sample::lines(&file("gate_replay/data/texts")) {
        let listing = listing::listing(text);
        let shown = &text[..text.len().min(SHOWN)];
        told("gate_replay", text, &[shown, b"\n", listing.as_bytes(), b"\n"].concat());
    }
    for lent in pools::read_texts(&file("gate_readings/stdin")) {
        told("gate_readings", &lent.text, pools::reading(&lent).as_bytes());
    }
    for lent in pools::compiled_texts(&file("gate_compilings/stdin")) {
        told("gate_compilings", &lent.text, pools::compiling(&lent).as_bytes());
    }
    for line in sample::lines(&file("gate_checkings/data/programs")) {
        let answers = checkings::answers(line, &model::SIDE).expect("one side agrees with itself");
        told("gate_checkings", line, &answers);
    }
    for program in ["listing", "gate_overlong"] {
        let text = file(&format!("{program}/stdin"));
        told(program, &text, listing::listing(&text).as_bytes());
    }
}
