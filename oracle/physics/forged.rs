//! One step from states that no run has: random vectors, so that the stored constraints don't belong to the field, and
//! one of them replaced by wilder numbers. A step also from times, and by steps, that no run has.
use super::states::{base, config, line, state_of};
use crate::arguments::{list, Range};
use crate::digest::of_bits;
use crate::use_cases::integration::rk4_step;

/// Time, and step over the base.
const TIMES: [(u64, u64); 8] = [
    (0x0000000000000000, 0x0000000000000000), (0x8000000000000000, 0x8000000000000000),
    (0x400D99999999999A, 0xBFF0000000000000), (0x400D99999999999A, 0x0000000000000001),
    (0x400D99999999999A, 0x7FF0000000000000), (0x400D99999999999A, 0x7FF8000000000000),
    (0x7FF8000000000000, 0x3FF0000000000000), (0x7FF0000000000000, 0x3FF0000000000000),
];

pub fn print() {
    for level in 5..=7 {
        for seed in 1..=3 {
            // vector 8 is none of the eight
            for replaced in 0..=8 {
                step(&format!("level {level} seed {seed} replaced {replaced}"), level, 3.7, 1.0, forged(level, seed, replaced));
            }
        }
    }
    for (time, factor) in TIMES {
        let case = format!("level 5 time {time:016x} factor {factor:016x}");
        step(&case, 5, of_bits(time), of_bits(factor), forged(5, 1, 8));
    }
}

fn step(case: &str, level: u32, time: f64, factor: f64, vectors: [Vec<f64>; 8]) {
    let config = config(level, 0.0);
    let next = rk4_step(&config, &state_of(time, vectors), base(&config) * factor);
    line(&format!("forged {case}"), &next);
}

/// The first three vectors lie about 0, the others about 1.
fn forged(level: u32, seed: u64, replaced: u64) -> [Vec<f64>; 8] {
    let n = (1 << level) + 1;
    std::array::from_fn(|k| {
        let k = k as u64;
        let centre = if k < 3 { 0.0 } else { 1.0 };
        let range = if k == replaced { wild(k) } else { Range::Unit };
        list(range, 8 * seed + k, n).iter().map(|x| centre + 0.0625 * x).collect()
    })
}

/// A step doesn't read vectors 3 and 4, and nothing reads the alternate mass but itself: any pattern will do there.
fn wild(k: u64) -> Range {
    if (2..5).contains(&k) { Range::Patterns } else { Range::Ten }
}
