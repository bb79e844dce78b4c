//! Says where a pattern matches in a file, without a check at every offset.
//!
//!     cargo run --release --example find '{ 4D 5A [0-64] 50 45 00 00 }' FILE
//!
//! Every match holds one of the pattern's literals. So the file is searched for these, and checked only at the offsets from which a match can reach
//! to one.

use std::ffi::OsString;
use std::fmt::Display;
use std::io::{self, BufWriter, ErrorKind, Write};
use std::os::unix::ffi::OsStrExt;
use std::{env, error::Error, fs, process::ExitCode};

use tokenmarsh::{NodeWord, Pattern, literals};

/// The bytes of the longest match of some node words.
fn longest(mut words: &[NodeWord]) -> usize {
    let mut sum = 0;
    while let Some((word, rest)) = words.split_first() {
        let (kind, a, b) = (word & 255, (word >> 8 & 65535) as usize, (word >> 24 & 65535) as usize);
        words = rest;
        sum += match kind {
            3 => a,
            4 => b,
            6 => {
                let (mut branches, rest) = words.split_at(a);
                words = rest;
                let mut most = 0;
                while let Some((branch, rest)) = branches.split_first() {
                    let (nodes, rest) = rest.split_at((branch >> 8 & 65535) as usize);
                    most = most.max(longest(nodes));
                    branches = rest;
                }
                most
            }
            _ => 1,
        };
    }
    sum
}

/// Tells each offset from which the forward check finds an end, rising, with that end.
fn find(
    text: &[u8],
    haystack: &[u8],
    mut tell: impl FnMut(usize, usize) -> io::Result<()>,
) -> Result<(), Box<dyn Error>> {
    let forward = Pattern::compile_strict(text)?.forward;
    // What compiles is refused here by 17 or 19 alone. Then, as where none are picked, it is checked at every offset.
    let literals = literals(text).map_or_else(|_| Vec::new(), |picked| picked.literals);
    let mut by_first = vec![Vec::new(); 256];
    for literal in &literals {
        by_first[usize::from(literal[0])].push(literal.as_slice());
    }
    let begins = |at: usize| by_first[usize::from(haystack[at])].iter().any(|one| haystack[at..].starts_with(one));
    // A match that holds a literal starts at most so far before it.
    let reach = literals.iter().map(Vec::len).min().map_or(0, |shortest| longest(forward.words()) - shortest);
    let mut checked = 0;
    for at in (0..haystack.len()).filter(|at| literals.is_empty() || begins(*at)) {
        for start in checked.max(at.saturating_sub(reach))..=at {
            if let Some(length) = forward.end(&haystack[start..]) {
                tell(start, start + length)?;
            }
        }
        checked = at + 1;
    }
    Ok(())
}

/// Says what is wrong. Where even that cannot be written, the status still tells.
fn fail(status: u8, why: impl Display) -> ExitCode {
    let _ = writeln!(io::stderr(), "{why}");
    ExitCode::from(status)
}

fn main() -> ExitCode {
    let args: Vec<OsString> = env::args_os().collect();
    let (text, file) = match args.as_slice() {
        [_, text, file] => (text, file),
        _ => return fail(2, "usage: find PATTERN FILE"),
    };
    let haystack = match fs::read(file) {
        Ok(haystack) => haystack,
        Err(error) => return fail(1, format_args!("{}: {error}", file.to_string_lossy())),
    };
    let mut out = BufWriter::new(io::stdout().lock());
    let found = find(text.as_bytes(), &haystack, |start, end| writeln!(out, "{start} {end}"));
    let done = found.and_then(|()| Ok(out.flush()?));
    match done.as_ref().map_err(|error| (error, error.downcast_ref::<io::Error>())) {
        Ok(()) => ExitCode::SUCCESS,
        // A reader that goes away has had enough, and is told nothing.
        Err((_, Some(error))) if error.kind() == ErrorKind::BrokenPipe => ExitCode::from(141),
        Err((_, Some(error))) => fail(1, format_args!("standard output cannot be written: {error}")),
        Err((refused, None)) => fail(1, refused),
    }
}
