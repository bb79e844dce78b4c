//! The samples of document 01, run on the original and on the document's third reading.

use crate::sides::{Answer, Found, Picked, Read, Side, Window};
use crate::{model, original, ours};

/// A text, and its refusal's number and place, or 0 and the offset reached.
const READING: &[(&str, u32, usize)] = &[
    ("{ AB [0] CD }", 4, 5),
    ("{ [5] AB }", 6, 2),
    ("{ AB (CD [200] EF) }", 0, 20),
    ("{ AB (CD [201] EF) }", 8, 9),
    ("{ ~?? }", 9, 2),
    ("{ ??? }", 2, 4),
    ("{ AB [2-3] [x }", 6, 2),
    ("{ AB [x }", 2, 5),
    ("{ (AB|) }", 2, 5),
    ("{ AB } zz", 0, 7),
    ("{ AB [4294967296] CD }", 3, 6),
    ("{ AB [4294967295] CD }", 0, 22),
];

/// A program, a haystack, and the forward end.
const FORWARD: &[(&str, &[u8], usize)] =
    &[("{ (61|61 62) 63 }", b"abc", 3), ("{ (61 62|61) }", b"ab", 2)];

struct Count {
    run: u32,
    wrong: u32,
}

impl Count {
    fn check(&mut self, good: bool, what: &str) {
        self.run += 1;
        if !good {
            self.wrong += 1;
            println!("  WRONG {what}");
        }
    }
}

fn place(answer: &Answer<Read>) -> (u32, usize) {
    match answer {
        Ok(read) => (0, read.reached),
        Err(refusal) => (refusal.number, refusal.place),
    }
}

fn reading(side: &Side, count: &mut Count) {
    for (text, number, at) in READING {
        if let Some(answer) = side.read.and_then(|f| f(text.as_bytes())) {
            count.check(
                place(&answer) == (*number, *at),
                &format!("{} {text}: {answer:?}", side.name),
            );
        }
    }
}

fn searching(side: &Side, count: &mut Count) {
    for (text, hay, end) in FORWARD {
        let words =
            model::tokens(text.as_bytes()).and_then(|(l, _)| model::programs(&l)).unwrap().forward;
        let window = Window { hay, start: 0, end: hay.len() };
        if let Some(answer) = side.forward.and_then(|f| f(&words, window)) {
            count
                .check(answer == Ok(Found::At(*end)), &format!("{} {text}: {answer:?}", side.name));
        }
    }
    let words =
        model::tokens(b"{ (61|62 61) }").and_then(|(l, _)| model::programs(&l)).unwrap().reverse;
    let window = Window { hay: b"ba", start: 0, end: 2 };
    if let Some(answer) = side.reverse.and_then(|f| f(&words, window)) {
        count.check(answer == Ok(Found::At(1)), &format!("{} backwards: {answer:?}", side.name));
    }
}

fn compiling(side: &Side, count: &mut Count) {
    let Some(compile) = side.compile else {
        return;
    };
    let jump = |n: u64| 3 + 256 * n;
    for (text, forward, reverse) in [
        ("{ A? }", vec![0xF000_A001], vec![0xF000_A001]),
        ("{ 61 [0-2] 63 }", vec![0x6100, 0x200_0004, 0x6300], vec![0x6300, 0x200_0004, 0x6100]),
        (
            "{ AB [100] [200] [50] [100] CD }",
            vec![0xAB00, jump(450), 0xCD00],
            vec![0xCD00, jump(450), 0xAB00],
        ),
        (
            "{ AB [25000] [50000] [12000] [25000] CD }",
            vec![0xAB00, jump(25_000), jump(62_000), jump(25_000), 0xCD00],
            vec![0xCD00, jump(37_000), jump(50_000), jump(25_000), 0xAB00],
        ),
        ("{ AB [256] CD }", vec![0xAB00, jump(256), 0xCD00], vec![0xCD00, jump(256), 0xAB00]),
    ] {
        if let Some(answer) = compile(text.as_bytes()) {
            let good = answer.as_ref().is_ok_and(|c| c.forward == forward && c.reverse == reverse);
            count.check(good, &format!("{} {text}: {answer:x?}", side.name));
        }
    }
    for (text, number) in [
        ("{ AB [255] CD }", 0),
        ("{ AB [65535] CD }", 0),
        ("{ AB [65536] CD }", 12),
        ("{ AB [2-] CD }", 12),
        ("{ AB [4294967295] CD }", 12),
    ] {
        if let Some(answer) = compile(text.as_bytes()) {
            let got = answer.as_ref().err().map_or(0, |r| r.number);
            count.check(got == number, &format!("{} {text}: {answer:x?}", side.name));
        }
    }
}

fn picking(side: &Side, count: &mut Count) {
    let Some(literals) = side.literals else {
        return;
    };
    for (text, rank, number, first) in [
        ("{ 01 02 ?3 04 }", 70, 16, vec![1, 2, 0x03, 4]),
        ("{ ?1 (AA | BB CC) }", 30, 32, vec![0x01, 0xAA]),
        ("{ 61 [0-2] 63 }", 20, 1, vec![0x63]),
    ] {
        if let Some(answer) = literals(text.as_bytes()) {
            let right =
                |p: &Picked| p.rank == rank && p.literals.len() == number && p.literals[0] == first;
            count.check(
                answer.as_ref().is_ok_and(right),
                &format!("{} {text}: {answer:x?}", side.name),
            );
        }
    }
}

pub fn samples() -> bool {
    let mut all_good = true;
    for side in [original::SIDE, model::SIDE, ours::side()] {
        let mut count = Count { run: 0, wrong: 0 };
        reading(&side, &mut count);
        searching(&side, &mut count);
        compiling(&side, &mut count);
        picking(&side, &mut count);
        println!("samples on {}: {} run, {} wrong", side.name, count.run, count.wrong);
        all_good &= count.wrong == 0;
    }
    all_good
}
