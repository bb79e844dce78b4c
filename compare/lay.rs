// Shared by the build scripts: fetches files of the original from BOREAL_SRC into OUT_DIR.
// Nothing of the original is kept in the repository.

use std::path::{Path, PathBuf};
use std::{env, fs};

/// One file of the original and the module it becomes.
struct Laid {
    /// Its path in the original's repository.
    path: &'static str,
    module: &'static str,
    /// A file of ours, in this package's src/, that is declared as a child module below the
    /// unchanged text: a child sees the private names which the comparison must reach.
    seam: Option<&'static str>,
}

fn source(root: &Path, path: &str) -> Option<String> {
    let flat = format!("src--{}.txt", path.replace('/', "--"));
    let places = [root.join(path), root.join(flat)];
    places.iter().find_map(|place| fs::read_to_string(place).ok())
}

/// Writes each file and `NAME.rs` with the modules; tells by cfg(original) whether all were found.
fn lay(name: &str, files: &[Laid]) {
    println!("cargo::rustc-check-cfg=cfg(original)");
    println!("cargo::rerun-if-env-changed=BOREAL_SRC");
    let Some(root) = env::var_os("BOREAL_SRC").filter(|v| !v.is_empty()) else {
        return;
    };
    let root = PathBuf::from(root);
    let out = PathBuf::from(env::var_os("OUT_DIR").unwrap());
    let package = PathBuf::from(env::var_os("CARGO_MANIFEST_DIR").unwrap());
    let mut modules = String::new();
    for file in files {
        let Some(mut text) = source(&root, file.path) else {
            panic!("BOREAL_SRC ({}) has no {}", root.display(), file.path);
        };
        if let Some(seam) = file.seam {
            let seam = package.join("src").join(seam);
            println!("cargo::rerun-if-changed={}", seam.display());
            text.push_str(&format!("\n#[path = {seam:?}]\npub mod seam;\n"));
        }
        let place = out.join(format!("{}.rs", file.module));
        if fs::read_to_string(&place).ok().as_ref() != Some(&text) {
            fs::write(&place, &text).unwrap();
        }
        modules.push_str(&format!("#[path = {place:?}]\npub mod {};\n", file.module));
    }
    fs::write(out.join(format!("{name}.rs")), modules).unwrap();
    println!("cargo::rustc-cfg=original");
}
