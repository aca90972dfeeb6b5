//! What the calls answer where a level or a length is refused: our reading of 01, which numbers these 5 and 11.
//! The level is tested first. A refused call leaves its memories as they were; an accepted one leaves work memory
//! from number 40n on, and a state memory that is lent to be read.
use super::states::{base, config, state_of, vectors};
use crate::arguments::{list, Range};
use crate::digest::{bits_of, digest};
use crate::use_cases::integration::rk4_step;
use crate::use_cases::state_builder::build_initial_state;

/// At level 5 a state is 264 numbers, work memory 1320. The memories have 300 and 1400; a call gets the first of them.
const N: usize = 33;
const STATE: usize = 300;
const WORK: usize = 1400;

/// Level, and how much is lent of each memory.
const STEPS: [(u32, usize, usize); 14] = [
    (5, 264, 1320), (5, 300, 1400), (5, 263, 1320), (5, 264, 1319), (5, 263, 1319), (5, 0, 1320), (5, 264, 0), (4, 264, 1320),
    (17, 264, 1320), (261, 264, 1320), (4, 263, 1320), (17, 264, 1319), (261, 0, 0), (6, 300, 1400),
];
const BUILDS: [(u32, usize); 10] = [
    (5, 1320), (5, 1400), (5, 1319), (5, 264), (5, 0), (4, 1320), (17, 1320), (261, 1320), (4, 1319), (6, 1400),
];
const STORES: [(u32, usize, usize); 12] = [
    (5, 264, 264), (5, 300, 300), (5, 300, 264), (5, 263, 264), (5, 264, 263), (5, 0, 0), (4, 264, 264), (17, 264, 264),
    (261, 264, 264), (4, 263, 264), (17, 264, 263), (6, 300, 300),
];

pub fn print() {
    for (level, state, work) in STEPS {
        step(level, state, work);
    }
    for (level, work) in BUILDS {
        build(level, work);
    }
    for (level, from, state) in STORES {
        store(level, from, state);
    }
}

/// 5 for a level outside 5 to 16, 11 where a memory is too short, else 0.
fn answer(level: u32, fits: impl Fn(usize) -> bool) -> u32 {
    if !(5..=16).contains(&level) {
        return 5;
    }
    if fits((1 << level) + 1) { 0 } else { 11 }
}

fn step(level: u32, lent_state: usize, lent_work: usize) {
    let (state, work) = (list(Range::Unit, 7, STATE), list(Range::Unit, 8, WORK));
    let number = answer(level, |n| lent_state >= 8 * n && lent_work >= 40 * n);
    let case = format!("rk4_step level {level} lengths {lent_state} {lent_work} answer {number}");
    if number != 0 {
        println!("{case} left {} {}", digest(&state), digest(&work));
        return;
    }
    let config = config(level, 0.0);
    let from = state_of(3.7, std::array::from_fn(|k| state[k * N..][..N].to_vec()));
    let next = rk4_step(&config, &from, base(&config));
    let made = digest(vectors(&next).into_iter().flatten());
    println!("{case} time {:016x} left {} made {made} beyond {}", bits_of(next.time), digest(&state), digest(&work[40 * N..]));
}

fn build(level: u32, lent_work: usize) {
    let work = list(Range::Unit, 8, WORK);
    let number = answer(level, |n| lent_work >= 40 * n);
    let case = format!("build_initial_state level {level} length {lent_work} answer {number}");
    if number != 0 {
        println!("{case} left {}", digest(&work));
        return;
    }
    let initial = build_initial_state(&config(level, 10.0));
    println!("{case} made {} beyond {}", digest(vectors(&initial).into_iter().flatten()), digest(&work[40 * N..]));
}

fn store(level: u32, lent_from: usize, lent_state: usize) {
    let (from, mut state) = (list(Range::Unit, 9, STATE), list(Range::Unit, 7, STATE));
    let number = answer(level, |n| lent_from >= 8 * n && lent_state >= 8 * n);
    if number == 0 {
        state[..8 * N].copy_from_slice(&from[..8 * N]);
    }
    println!("store level {level} lengths {lent_from} {lent_state} answer {number} left {} {}", digest(&from), digest(&state));
}
