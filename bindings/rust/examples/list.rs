//! Compiles the pattern given as an argument and says where it matches in a file.
//!
//!     cargo run --example list '{ 4D 5A [0-64] 50 45 }' FILE

use std::ffi::OsString;
use std::fmt::Display;
use std::io::{self, BufWriter, ErrorKind, Write};
use std::os::unix::ffi::OsStrExt;
use std::path::Path;
use std::{env, fs, process::ExitCode};

use tokenmarsh::Pattern;

/// Says what is wrong. Where even that cannot be written, the status still tells.
fn fail(status: u8, why: impl Display) -> ExitCode {
    let _ = writeln!(io::stderr(), "{why}");
    ExitCode::from(status)
}

/// A line for each match, all of them written.
fn list(pattern: &Pattern, bytes: &[u8]) -> io::Result<()> {
    let mut out = BufWriter::new(io::stdout().lock());
    for start in 0..bytes.len() {
        if let Some(length) = pattern.forward.end(&bytes[start..]) {
            writeln!(out, "{start} {}", start + length)?;
        }
    }
    out.flush()
}

fn main() -> ExitCode {
    let args: Vec<OsString> = env::args_os().collect();
    let (text, file) = match args.as_slice() {
        [_, text, file] => (text, file),
        _ => return fail(2, "usage: list PATTERN FILE"),
    };
    let pattern = match Pattern::compile_strict(text.as_bytes()) {
        Ok(pattern) => pattern,
        Err(refused) => return fail(1, refused),
    };
    let bytes = match fs::read(file) {
        Ok(bytes) => bytes,
        Err(error) => return fail(1, format_args!("{}: {error}", Path::new(file).display())),
    };
    match list(&pattern, &bytes) {
        Ok(()) => ExitCode::SUCCESS,
        // A reader that goes away has had enough, and is told nothing. The status is what a shell says of a program that the signal of a
        // broken pipe ended; Rust's programs ignore that signal.
        Err(error) if error.kind() == ErrorKind::BrokenPipe => ExitCode::from(141),
        Err(error) => fail(1, format_args!("standard output cannot be written: {error}")),
    }
}
