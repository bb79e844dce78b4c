include!("../../lay.rs");

fn main() {
    println!("cargo::rerun-if-changed=../../lay.rs");
    lay(
        "laid",
        &[
            Laid { path: "boreal-parser/src/hex_string.rs", module: "hex_string", seam: None },
            Laid { path: "boreal-parser/src/nom_recipes.rs", module: "nom_recipes", seam: None },
            Laid { path: "boreal-parser/src/error.rs", module: "error", seam: Some("errors.rs") },
            Laid { path: "boreal-parser/src/types.rs", module: "types", seam: None },
        ],
    );
}
