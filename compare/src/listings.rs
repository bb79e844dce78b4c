//! The listing program run on random texts.

use std::io::Write;
use std::process::{Command, Stdio};

use crate::generate::{self, Rng, Taste};
use crate::listing::listing;
use crate::runs::shown;

fn written(program: &str, text: &[u8]) -> String {
    let mut child = Command::new(program)
        .stdin(Stdio::piped())
        .stdout(Stdio::piped())
        .spawn()
        .expect("the program starts");
    // A program that reads less than it is sent closes the pipe, which is no fault.
    let _ = child.stdin.take().map(|mut pipe| pipe.write_all(text));
    let output = child.wait_with_output().expect("the program ends");
    String::from_utf8_lossy(&output.stdout).into_owned()
}

fn text(rng: &mut Rng) -> Vec<u8> {
    let taste = Taste { odd: 30, small: rng.one_in(2), negations: true, bytes: 16 };
    let text = match rng.below(8) {
        0 => generate::at_limits(rng),
        1..=3 => generate::for_literals(rng),
        _ => generate::pattern(rng, taste, 2, 8),
    };
    if rng.one_in(6) { generate::damaged(rng, &text) } else { text }
}

/// The program's output against ours on so many texts.
pub fn listings(program: &str, seed: u64, count: u64) -> bool {
    let mut rng = Rng::new(seed);
    let (mut refused, mut wrong) = (0, 0);
    for _ in 0..count {
        let text = text(&mut rng);
        let want = listing(&text);
        refused += u64::from(want.starts_with("refused"));
        if written(program, &text) != want {
            wrong += 1;
            println!("    DIFFERS {}", shown(&text));
        }
    }
    println!("listings, seed {seed}: {count} texts, {refused} refused, {wrong} differ");
    wrong == 0
}
