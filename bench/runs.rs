//! Times runs of the library capi, of the Rust with 01's functions and of the Rust as published, interleaved, and runs of
//! the library cut into budgets. bench/run compiles it among the files of oracle/build; the crate `published` is the Rust
//! as published.
mod calls;
mod capi;
mod domain;
mod mantissas;
mod ours;
mod rust;
mod samples;
mod use_cases;

use calls::Library;
use samples::{median, now};
use std::cell::RefCell;
use std::hint::black_box;

const AMPLITUDE: f64 = 10.0;
/// Samples of each; an odd number, so that the median is one of them.
const SAMPLES: usize = 25;
/// Steps times points of a sample, about.
const POINTS: usize = 1_000_000;
/// Steps of a run: across levels at the most, and where it is cut into budgets.
const STEPS: usize = 100;
const CUT_STEPS: usize = 2_000;

fn main() {
    println!("runs of at most {STEPS} steps, amplitude {AMPLITUDE}, no frames, the library in one call; processor time, median of");
    println!("{SAMPLES} interleaved samples: steps per second, ns per point and step; in brackets how many times faster the library is");
    println!("level         library   Rust with 01's functions          Rust as published");
    let ratios: Vec<f64> = (5..=16).map(level).collect();
    let least = |r: &[f64]| r.iter().copied().fold(f64::INFINITY, f64::min);
    let (low, high) = (least(&ratios[..4]), least(&ratios[4..]));
    println!("against the Rust with 01's functions, at the least: {low:.2} at levels 5 to 8, {high:.2} at levels 9 to 16");
    println!("the library's runs of {CUT_STEPS} steps in one call and cut into budgets: us per step; in brackets what is added");
    let added: Vec<f64> = [5, 7, 10].iter().map(|&level| budgets(level)).collect();
    println!("budgets of 1, at the most: {:+.1} %", added.iter().copied().fold(f64::NEG_INFINITY, f64::max));
}

/// Makes a run and answers something of its last field.
type Run<'a> = Box<dyn FnMut() -> u64 + 'a>;

/// One line; how many times faster the library is than the Rust with 01's functions.
fn level(level: u32) -> f64 {
    let n = (1usize << level) + 1;
    let steps = (POINTS / n).clamp(1, STEPS);
    let mut library = Library::begin(level, AMPLITUDE);
    let patched = rust::Rust::begin(level, AMPLITUDE);
    let published = published::rust::Rust::begin(level, AMPLITUDE);
    let mut runs: [Run; 3] = [
        Box::new(|| mixed(library.run(steps, steps))),
        Box::new(|| mixed(&patched.run(steps))),
        Box::new(|| mixed(&published.run(steps))),
    ];
    // the last has other functions
    let [library, patched, published] = medians(&mut runs, 2, POINTS.div_ceil(n * steps)).map(|ns| ns / steps as f64);
    let speed = |ns: f64| format!("{:7.0} {:7.1}", 1e9 / ns, ns / n as f64);
    let beside = |ns: f64| format!("{} ({:.2})", speed(ns), ns / library);
    println!("{level:5} {}     {}     {}", speed(library), beside(patched), beside(published));
    patched / library
}

/// One line; what budgets of 1 add, in percent. The runs share their memories.
fn budgets(level: u32) -> f64 {
    let n = (1usize << level) + 1;
    let cuts = [CUT_STEPS, 1, 10, 1000];
    let library = &RefCell::new(Library::begin(level, AMPLITUDE));
    let mut runs = cuts.map(|budget| Box::new(move || mixed(library.borrow_mut().run(CUT_STEPS, budget))) as Run);
    let times = medians(&mut runs, cuts.len(), POINTS.div_ceil(n * CUT_STEPS)).map(|ns| ns / CUT_STEPS as f64 / 1000.0);
    let added = times.map(|time| 100.0 * (time / times[0] - 1.0));
    print!("level {level}: at once {:.3}", times[0]);
    for k in 1..cuts.len() {
        print!("; budgets of {} {:.3} ({:+.1} %)", cuts[k], times[k], added[k]);
    }
    println!();
    added[1]
}

/// The median time of each run, in ns, each so many times in a sample. The first runs must answer alike.
fn medians<const K: usize>(runs: &mut [Run; K], alike: usize, times: usize) -> [f64; K] {
    let mut samples = [const { Vec::new() }; K];
    for turn in 0..SAMPLES {
        let mut answers = [0; K];
        // another is the first in each turn
        for i in (0..K).map(|i| (i + turn) % K) {
            let start = now();
            (0..times).for_each(|_| answers[i] = black_box(runs[i]()));
            samples[i].push((now() - start) / times as f64);
        }
        assert!(answers[..alike].iter().all(|&a| a == answers[0]), "the runs differ");
    }
    samples.map(median)
}

/// Three of the numbers, so that a run's result is used at little cost.
fn mixed(values: &[f64]) -> u64 {
    let n = values.len();
    values[0].to_bits() ^ values[n / 3].to_bits().rotate_left(1) ^ values[n / 2].to_bits().rotate_left(2)
}
