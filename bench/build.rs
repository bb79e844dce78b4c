//! Links the library's archive, TOKENMARSH_LIB, where it has the timed functions.

use std::path::PathBuf;
use std::{env, fs};

include!("../compare/archive.rs");

fn main() {
    println!("cargo::rustc-check-cfg=cfg(original)");
    println!("cargo::rustc-check-cfg=cfg(ours)");
    println!("cargo::rerun-if-changed=../compare/archive.rs");
    println!("cargo::rerun-if-env-changed=BOREAL_SRC");
    println!("cargo::rerun-if-env-changed=TOKENMARSH_LIB");
    if env::var_os("BOREAL_SRC").is_some_and(|v| !v.is_empty()) {
        println!("cargo::rustc-cfg=original");
    }
    let Some(archive) = env::var_os("TOKENMARSH_LIB").filter(|v| !v.is_empty()) else {
        return;
    };
    let archive = PathBuf::from(archive);
    println!("cargo::rerun-if-changed={}", archive.display());
    let archive = archive.canonicalize().expect("TOKENMARSH_LIB names an archive");
    let names = exported(&fs::read(&archive).unwrap());
    if !["tm_hits", "tm_hits_back"].iter().all(|door| names.iter().any(|name| name == door)) {
        return;
    }
    let file = archive.file_name().unwrap().to_string_lossy().into_owned();
    println!("cargo::rustc-link-search=native={}", archive.parent().unwrap().display());
    println!("cargo::rustc-link-lib=static:+verbatim={file}");
    println!("cargo::rustc-cfg=ours");
}
