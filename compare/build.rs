//! Tells by cfg which sides are at hand: the original, and each C function that the library's
//! archive has (TOKENMARSH_LIB).

use std::path::PathBuf;
use std::{env, fs};

const DOORS: [&str; 9] = [
    "tm_version",
    "tm_read",
    "tm_compile",
    "tm_sound",
    "tm_mirror",
    "tm_forward",
    "tm_tail",
    "tm_reverse",
    "tm_literals",
];

include!("archive.rs");

fn main() {
    println!("cargo::rustc-check-cfg=cfg(original)");
    println!("cargo::rerun-if-changed=archive.rs");
    println!("cargo::rerun-if-env-changed=BOREAL_SRC");
    println!("cargo::rerun-if-env-changed=TOKENMARSH_LIB");
    for door in DOORS {
        println!("cargo::rustc-check-cfg=cfg({door})");
    }
    if env::var_os("BOREAL_SRC").is_some_and(|v| !v.is_empty()) {
        println!("cargo::rustc-cfg=original");
    }
    let Some(archive) = env::var_os("TOKENMARSH_LIB").filter(|v| !v.is_empty()) else {
        return;
    };
    let archive = PathBuf::from(archive);
    println!("cargo::rerun-if-changed={}", archive.display());
    let archive = archive.canonicalize().expect("TOKENMARSH_LIB names an archive");
    let names = exported(&fs::read(&archive).unwrap());
    for door in DOORS {
        if names.iter().any(|name| name == door) {
            println!("cargo::rustc-cfg={door}");
        }
    }
    let file = archive.file_name().unwrap().to_string_lossy().into_owned();
    println!("cargo::rustc-link-search=native={}", archive.parent().unwrap().display());
    println!("cargo::rustc-link-lib=static:+verbatim={file}");
}
