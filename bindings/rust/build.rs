//! Links libtokenmarsh.a: the archive that TOKENMARSH_LIB names, or the repository's own build.

use std::path::PathBuf;
use std::{env, fs};

fn main() {
    println!("cargo:rerun-if-env-changed=TOKENMARSH_LIB");
    let named = env::var_os("TOKENMARSH_LIB").filter(|v| !v.is_empty()).map(PathBuf::from);
    let here = PathBuf::from(env::var_os("CARGO_MANIFEST_DIR").expect("set by cargo"));
    // A name that is no full path would mean one file here and another to the linker.
    let archive = here.join(named.unwrap_or_else(|| "../../target/staticlib/libtokenmarsh.a".into()));
    println!("cargo:rerun-if-changed={}", archive.display());
    // An archive may have any name, and the linker looks for one: it gets a copy under that. An older copy must not be linked in its stead.
    let folder = PathBuf::from(env::var_os("OUT_DIR").expect("set by cargo"));
    let copy = folder.join("libtokenmarsh.a");
    if copy.exists() {
        fs::remove_file(&copy).expect("the build's own folder can be written");
    }
    // Not fatal: documentation needs no archive.
    if let Err(error) = fs::copy(&archive, &copy) {
        println!(
            "cargo:warning=no archive {} ({}): run make in tokenmarsh's repository, or name it by TOKENMARSH_LIB",
            archive.display(),
            error
        );
    }
    println!("cargo:rustc-link-search=native={}", folder.display());
    println!("cargo:rustc-link-lib=static=tokenmarsh");
}
