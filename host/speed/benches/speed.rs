//! The benchmark: `cargo bench` measures the calls of the vault and of the original, and writes `docs/SPEED.md`.
//!
//! `cargo bench -- --runs N --tree NAME --call NAME` sets the number of runs, or selects one tree or one call. With any of these
//! options it does not write the file.

use std::process::exit;

fn main() {
    // cargo adds the argument --bench
    let words = std::env::args().skip(1).filter(|word| word != "--bench");
    if let Err(problem) = speed::run(words) {
        eprintln!("{problem}\nusage: cargo bench [-- [--runs N] [--tree NAME] [--call NAME]]");
        exit(2);
    }
}
