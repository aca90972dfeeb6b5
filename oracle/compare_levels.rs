//! Compares all eight vectors of the library physics_c with those of the Rust, bit for bit, from the initial state on.
mod arguments;
mod digest;
mod domain;
mod library;
mod mantissas;
mod ours;
mod physics;
mod use_cases;

use digest::bits_of;
use domain::state::State;
use library::Memories;
use physics::states::{base, config, vectors};
use use_cases::integration::rk4_step;
use use_cases::state_builder::build_initial_state;

const AMPLITUDES: [f64; 6] = [0.5, 10.0, 35.5, 163.1, -20.0, 672.0];
const NAMES: [&str; 8] = [
    "field", "conj_momentum", "alternate_mass", "energy_density", "mass", "radial_factor", "lapse", "char_speed",
];
const STEPS: u32 = 5;

fn main() {
    let mut compared = 0u64;
    for level in 5..=16 {
        for amplitude in AMPLITUDES {
            compared += run(level, amplitude);
        }
        println!("level {level}: equal");
    }
    println!("{compared} numbers compared, no difference");
}

/// How many numbers were compared.
fn run(level: u32, amplitude: f64) -> u64 {
    let config = config(level, amplitude);
    let delta = base(&config);
    let mut ours = Memories::begin(level, amplitude);
    let mut state = build_initial_state(&config);
    let mut compared = same(&format!("level {level} amplitude {amplitude} steps 0"), &state, &ours);
    for steps in 1..=STEPS {
        state = rk4_step(&config, &state, delta);
        ours.step(delta);
        compared += same(&format!("level {level} amplitude {amplitude} steps {steps}"), &state, &ours);
    }
    compared
}

fn same(case: &str, state: &State, ours: &Memories) -> u64 {
    let n = state.field.len();
    for (k, v) in vectors(state).into_iter().enumerate() {
        for i in 0..n {
            let (theirs, mine) = (bits_of(v[i]), bits_of(ours.state[k * n + i]));
            if theirs != mine {
                println!("{case} {} at {i}: Rust {theirs:016x}, library {mine:016x}", NAMES[k]);
                std::process::exit(1);
            }
        }
    }
    8 * n as u64
}
