//! The published program with the system's exp, tan and powers, for comparisons of speed.
//! `published LEVEL AMPLITUDE STEPS` makes as many steps and prints the time of one and a digest of the field.
mod digest;
mod domain;
mod use_cases;

use domain::grid::Grid;
use domain::output_config::OutputConfig;
use domain::simulation_config::SimulationConfig;
use std::time::Instant;
use use_cases::adaptive_time_step::TimeStep;
use use_cases::integration::rk4_step;
use use_cases::state_builder::build_initial_state;

fn argument<T: std::str::FromStr>(i: usize) -> T {
    let text = std::env::args().nth(i).unwrap_or_default();
    text.parse().unwrap_or_else(|_| {
        eprintln!("usage: published LEVEL AMPLITUDE STEPS");
        std::process::exit(2);
    })
}

fn main() {
    let (level, amplitude, steps): (u32, f64, u32) = (argument(1), argument(2), argument(3));
    let grid = Grid::from_level_of_discretization(level);
    let config = SimulationConfig { grid, initial_amplitude: amplitude, max_time: f64::INFINITY };
    let output = OutputConfig { dt: 1.0, dx_level: level, skip_state_output: true };
    let mut state = build_initial_state(&config);
    let start = Instant::now();
    for _ in 0..steps {
        let step = TimeStep::next(&config, &output, &state);
        state = rk4_step(&config, &state, step.delta);
    }
    let ns = start.elapsed().as_nanos() as f64;
    println!("{:.1} ns per point and step", ns / steps as f64 / config.grid.len() as f64);
    println!("field {}", digest::digest(state.field.iter()));
}
