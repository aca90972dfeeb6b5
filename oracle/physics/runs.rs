//! Runs from the initial state with a constant step. A run ends after its last step or at a state with a NaN.
use super::states::{base, config, has_nan, line};
use crate::digest::bits_of;
use crate::domain::constants::BH_SLOWDOWN_FACTOR;
use crate::use_cases::integration::rk4_step;
use crate::use_cases::state_builder::build_initial_state;

/// At 668 and 672 some runs break after steps, at 700 in the initial state.
const AMPLITUDES: [f64; 13] = [0.0, 0.5, 10.0, 25.0, 26.0, 35.5, 60.0, 163.1, -20.0, 1e-200, 668.0, 672.0, 700.0];
/// The numbers of steps after which a state is printed.
const PRINTED: [u32; 6] = [0, 1, 2, 5, 20, 100];

pub fn print() {
    for level in 5..=9 {
        for amplitude in AMPLITUDES {
            run(level, amplitude, false, 100);
            run(level, amplitude, true, 100);
        }
    }
    for level in 10..=13 {
        for amplitude in [10.0, 35.5, -20.0, 700.0] {
            run(level, amplitude, false, 2);
        }
    }
}

fn run(level: u32, amplitude: f64, slowed: bool, last: u32) {
    let config = config(level, amplitude);
    let delta = if slowed { base(&config) * BH_SLOWDOWN_FACTOR } else { base(&config) };
    let name = if slowed { "slowed" } else { "base" };
    let case = format!("run level {level} amplitude {:016x} {name}", bits_of(amplitude));
    let mut state = build_initial_state(&config);
    let mut steps = 0;
    line(&format!("{case} steps 0"), &state);
    while steps < last && !has_nan(&state) {
        state = rk4_step(&config, &state, delta);
        steps += 1;
        if has_nan(&state) || PRINTED.contains(&steps) {
            line(&format!("{case} steps {steps}"), &state);
        }
    }
}
