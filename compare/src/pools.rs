//! What the programs gate_readings and gate_compilings must write: the answers of the third reading
//! of document 01 to texts, and what it leaves in the pools lent to it.

use std::fmt::Write;

use crate::model;
use crate::sides::{Answer, entries};

/// What each word of a pool holds before a call.
pub const OLD: u8 = 7;

/// A text, and the words of each pool that is lent with it.
pub struct Lending {
    pub text: Vec<u8>,
    pub pools: Vec<usize>,
}

fn lending(text: &[u8], pools: &[usize]) -> Lending {
    Lending { text: text.to_vec(), pools: pools.to_vec() }
}

/// The texts of crates/gate_readings/stdin, each after its length and a blank, and those that the
/// program itself tries with a pool that is too short.
pub fn read_texts(mut stdin: &[u8]) -> Vec<Lending> {
    let mut all = Vec::new();
    while let Some(blank) = stdin.iter().position(|b| *b == b' ') {
        let length = std::str::from_utf8(&stdin[..blank]).expect("a length");
        let end = blank + 1 + length.parse::<usize>().expect("a length");
        all.push(lending(&stdin[blank + 1..end], &[4100]));
        stdin = &stdin[end + 1..];
    }
    all.extend([b"{ AB }", b"{ AG }"].map(|text| lending(text, &[4095])));
    all
}

/// The lines of crates/gate_compilings/stdin, and the texts that the program itself tries with a
/// pool that is too short.
pub fn compiled_texts(stdin: &[u8]) -> Vec<Lending> {
    let lines = stdin.strip_suffix(b"\n").unwrap_or(stdin).split(|b| *b == b'\n');
    let mut all: Vec<_> = lines.map(|line| lending(line, &[516, 516])).collect();
    all.extend([lending(b"{ AB }", &[516, 511]), lending(b"{ AG }", &[511, 516])]);
    all
}

/// Pools before a call, of words of 32 bits for tokens or of 64 for nodes.
pub fn filled<W: Copy + From<u8>>(lengths: &[usize]) -> Vec<Vec<W>> {
    lengths.iter().map(|n| vec![W::from(OLD); *n]).collect()
}

/// How many words of a pool are 0 from the used ones up to `size`, and how many of the four beyond
/// are as before.
pub fn rest<W: Copy + PartialEq + From<u8>>(pool: &[W], used: usize, size: usize) -> String {
    let holding = |from: usize, to: usize, value: u8| {
        pool.iter().take(to).skip(from).filter(|w| **w == W::from(value)).count()
    };
    format!("zeros {} old {}", holding(used, size, 0), holding(size, size + 4, OLD))
}

/// A refusal without the line's end.
fn refused(out: &mut String, answer: &Answer<Vec<usize>>) {
    if let Err(refusal) = answer {
        write!(out, "refused {} at {}", refusal.number, refusal.place).unwrap();
    }
}

/// What the program gate_readings writes for a text: an entry to a line, if they are few.
pub fn reading(lent: &Lending) -> String {
    let read = model::tokens(&lent.text);
    let mut pools = filled(&lent.pools);
    let words = read.as_ref().map(|(list, _)| vec![entries(list)]).map_err(|refusal| *refusal);
    let answer = model::into_pools(&mut pools, model::TOKEN_POOL, words);
    let mut out = String::new();
    refused(&mut out, &answer);
    let mut used = 0;
    if let (Ok(counts), Ok((_, reached))) = (&answer, &read) {
        used = counts[0];
        write!(out, "read {reached} words {used}").unwrap();
    }
    writeln!(out, " {}", rest(&pools[0], used, 4096)).unwrap();
    for entry in pools[0][..if used <= 64 { used } else { 0 }].chunks(4) {
        let entry: Vec<_> = entry.iter().map(u32::to_string).collect();
        writeln!(out, "{}", entry.join(" ")).unwrap();
    }
    out
}

/// What the program gate_compilings writes for a text: the first sixteen words of each pool.
pub fn compiling(lent: &Lending) -> String {
    let made = model::tokens(&lent.text).and_then(|(list, _)| model::programs(&list));
    let mut pools = filled(&lent.pools);
    let words = made.map(|c| vec![c.forward, c.reverse]);
    let answer = model::into_pools(&mut pools, model::NODE_POOL, words);
    let mut out = String::new();
    refused(&mut out, &answer);
    let blank = if answer.is_err() { " " } else { "" };
    let used = answer.unwrap_or(vec![0, 0]);
    for ((name, pool), used) in ["forward", "reverse"].iter().zip(&pools).zip(used) {
        write!(out, "{blank}{name} {used} {}", rest(pool, used, 512)).unwrap();
        pool[..used.min(16)].iter().for_each(|w| write!(out, " {w}").unwrap());
        out.push('\n');
    }
    out
}
