include!("../../lay.rs");

fn main() {
    println!("cargo::rerun-if-changed=../../lay.rs");
    lay("top", &[Laid { path: "boreal/src/bitmaps.rs", module: "bitmaps", seam: None }]);
    lay(
        "parts",
        &[
            Laid { path: "boreal/src/matcher/analysis.rs", module: "analysis", seam: None },
            Laid {
                path: "boreal/src/matcher/literals.rs",
                module: "literals",
                seam: Some("pick.rs"),
            },
        ],
    );
    lay(
        "validator",
        &[Laid {
            path: "boreal/src/matcher/validator/simple.rs",
            module: "simple",
            seam: Some("nodes.rs"),
        }],
    );
}
