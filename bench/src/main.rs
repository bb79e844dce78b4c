//! Times our checks beside the original's, from every start (or before every end) of one
//! haystack, and prints ratios: only two times of one run on one machine can be compared.

#[cfg(all(original, ours))]
mod run;

fn main() {
    #[cfg(all(original, ours))]
    run::run();
    #[cfg(not(original))]
    println!("benchmark: not run. Set BOREAL_SRC to a checkout of boreal, then bench/run.");
    #[cfg(all(original, not(ours)))]
    println!(
        "benchmark: not run. No archive with tm_hits and tm_hits_back: make target/staticlib/libhits.a"
    );
}
