//! Compares the library with the original by running both, and both with document 01.

#[cfg(original)]
mod checkings;
#[cfg(original)]
mod generate;
#[cfg(original)]
mod listing;
#[cfg(original)]
mod listings;
#[cfg(original)]
mod model;
#[cfg(original)]
mod original;
#[cfg(original)]
mod ours;
#[cfg(original)]
mod pools;
/// The C functions of the library, as its Rust binding declares them.
#[allow(dead_code)]
#[path = "../../bindings/rust/src/raw.rs"]
mod raw;
#[cfg(original)]
mod runs;
#[cfg(original)]
mod sample;
#[cfg(original)]
mod samples;
#[cfg(original)]
mod sides;
#[cfg(original)]
mod tally;

#[cfg(original)]
use std::sync::atomic::{AtomicUsize, Ordering};

#[cfg(not(original))]
fn main() {
    println!("comparison: not run");
    println!("Set BOREAL_SRC to a checkout of boreal at 7010b5e967, or to a folder with its files");
    println!("under flat names (src--boreal--src--bitmaps.rs.txt), then run compare/run.");
}

#[cfg(original)]
fn main() -> std::process::ExitCode {
    std::panic::set_hook(Box::new(|info| eprintln!("panicked: {info}")));
    let args: Vec<String> = std::env::args().skip(1).collect();
    let judge = runs::Judge::new();
    let good = compared(&judge, &args).or_else(|| shown(&judge, &args)).unwrap_or_else(|| {
        eprintln!("no such comparison; the head of compare/run names them");
        false
    });
    if good { std::process::ExitCode::SUCCESS } else { std::process::ExitCode::FAILURE }
}

#[cfg(original)]
fn number(args: &[String], at: usize, usual: u64) -> u64 {
    args.get(at).map_or(usual, |a| a.parse().expect("a number"))
}

/// Runs a comparison and answers whether it was good; None for another name.
#[cfg(original)]
fn compared(judge: &runs::Judge, args: &[String]) -> Option<bool> {
    let seed = || number(args, 1, 1);
    let length = |usual: u64| number(args, 1, usual) as usize;
    let count = |usual: u64| number(args, 2, usual) as usize;
    Some(match args.first().map_or("all", String::as_str) {
        "samples" => samples::samples(),
        "rooms" => ours::rooms(),
        "texts" => judge.texts(length(5)),
        "pieces" => judge.pieces(length(4)),
        "good" => judge.good(seed(), count(300_000)),
        "limits" => judge.limits(seed(), count(300_000)),
        "damaged" => judge.damaged(seed(), count(300_000)),
        "literals" => judge.random_literals(seed(), count(100_000)),
        "spans" => judge.spans(seed(), count(100_000)),
        "programs" => judge.programs(length(4)),
        "checks" => judge.random_checks(seed(), count(300_000)),
        "words" => judge.damaged_words(seed(), count(300_000)),
        "listings" => listings::listings(&args[1], number(args, 2, 1), number(args, 3, 2000)),
        "all" => all(judge, seed(), count(1_000_000)),
        _ => return None,
    })
}

/// Every comparison, exhaustive ones of more than a million inputs and random ones of so many each,
/// on as many threads as there are processors. What takes longest is begun first.
#[cfg(original)]
fn all(judge: &runs::Judge, seed: u64, count: usize) -> bool {
    let all: [(&str, &(dyn Fn() -> bool + Sync)); 12] = [
        ("samples", &samples::samples),
        ("rooms", &ours::rooms),
        ("literals", &|| judge.random_literals(seed, count)),
        ("pieces", &|| judge.pieces(5)),
        ("limits", &|| judge.limits(seed, count)),
        ("good", &|| judge.good(seed, count)),
        ("damaged", &|| judge.damaged(seed, count)),
        ("texts", &|| judge.texts(6)),
        ("checks", &|| judge.random_checks(seed, count)),
        ("words", &|| judge.damaged_words(seed, count)),
        ("programs", &|| judge.programs(5)),
        ("spans", &|| judge.spans(seed, count)),
    ];
    let next = AtomicUsize::new(0);
    let worker = || {
        let mut bad = Vec::new();
        while let Some((name, run)) = all.get(next.fetch_add(1, Ordering::Relaxed)) {
            if !run() {
                bad.push(*name);
            }
        }
        bad
    };
    let threads = std::thread::available_parallelism().map_or(1, usize::from);
    let bad: Vec<&str> = std::thread::scope(|scope| {
        let workers: Vec<_> = (0..threads).map(|_| scope.spawn(&worker)).collect();
        workers.into_iter().flat_map(|w| w.join().expect("a worker ends")).collect()
    });
    match bad.is_empty() {
        true => println!("all: nothing differs but what docs/DIFFERENCES.md names"),
        false => println!("all: DIFFERS in {}", bad.join(", ")),
    }
    bad.is_empty()
}

/// Prints what was asked for; None for another name.
#[cfg(original)]
fn shown(judge: &runs::Judge, args: &[String]) -> Option<bool> {
    let size = |at: usize, usual: u64| number(args, at, usual) as usize;
    match args[0].as_str() {
        "show" => args[1..].iter().for_each(|text| judge.show(text.as_bytes())),
        "nodes" => {
            let word = |w: &String| u64::from_str_radix(w, 16).expect("hex");
            let words: Vec<u64> = args[4..].iter().map(word).collect();
            let (hay, start, end) = (sides::hex(&args[1]), size(2, 0), size(3, 0));
            judge.show_checks(&words, sides::Window { hay: &hay, start, end });
        }
        "listing" => {
            let mut text = Vec::new();
            std::io::Read::read_to_end(&mut std::io::stdin(), &mut text).expect("input");
            print!("{}", listing::listing(&text));
        }
        "sample" => {
            return Some(sample::sample("../crates/gate_rustsays/data/cases", &original::SIDE));
        }
        "checkings" => {
            let path = "../crates/gate_checkings/data/programs";
            return Some(checkings::checkings(path, &original::SIDE));
        }
        "readings" => pools::read_texts(&stored("gate_readings"))
            .iter()
            .for_each(|lent| print!("{}", pools::reading(lent))),
        "compilings" => pools::compiled_texts(&stored("gate_compilings"))
            .iter()
            .for_each(|lent| print!("{}", pools::compiling(lent))),
        "patterns" => runs::Judge::patterns(number(args, 1, 1), size(2, 50), size(3, 50)),
        "starts" => starts(judge),
        _ => return None,
    }
    Some(true)
}

/// The standard input that a program of the gate is run on.
#[cfg(original)]
fn stored(program: &str) -> Vec<u8> {
    std::fs::read(format!("../crates/{program}/stdin")).expect("a stored input")
}

/// Lines of a haystack in hex, a blank and a pattern; answers a line of starts, or `refused N`.
#[cfg(original)]
fn starts(judge: &runs::Judge) {
    for line in std::io::stdin().lines() {
        let line = line.expect("lines of text");
        let (hay, pattern) = line.split_once(' ').expect("a haystack and a pattern");
        match judge.starts(pattern.as_bytes(), &sides::hex(hay)) {
            Ok(all) => {
                println!("{}", all.iter().map(usize::to_string).collect::<Vec<_>>().join(" "))
            }
            Err(number) => println!("refused {number}"),
        }
    }
}
