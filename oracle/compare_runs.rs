//! Compares the runs of the library capi with 01's plain run over the published Rust, call by call and bit for bit.
mod arguments;
mod capi;
mod dice;
mod digest;
mod domain;
mod levels;
mod mantissas;
mod ours;
mod physics;
mod run;
mod use_cases;

fn main() {
    let seed = std::env::args().nth(1).and_then(|text| text.parse().ok()).unwrap_or_else(|| {
        eprintln!("usage: compare_runs SEED");
        std::process::exit(2);
    });
    levels::compare(seed);
}
