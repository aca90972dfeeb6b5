//! Whole runs by the published `simulate`, of cases that end without a NaN.
use super::plain::{configs, flat};
use super::settings::{Case, Settings};
use crate::digest::{bits_of, digest};
use crate::domain::output_config::OutputConfig;
use crate::domain::simulation_config::SimulationConfig;
use crate::domain::simulation_inputs::SimulationInputs;
use crate::domain::simulation_output::SimulationOutput;
use crate::domain::state::State;
use crate::use_cases::ports::{SimulationLogger, StateOutputCreator};
use crate::use_cases::simulate::simulate;
use crate::use_cases::state_builder::build_initial_state;
use crate::use_cases::state_output_builder::build_state_output;

const ENDING: [usize; 23] = [0, 1, 3, 4, 5, 6, 7, 8, 9, 10, 11, 12, 16, 17, 18, 22, 23, 24, 25, 26, 27, 28, 33];

pub fn print(cases: &[Case]) {
    for k in ENDING {
        println!("case {k} whole {}", line(&cases[k].settings));
    }
}

/// Steps, time, mass or none; the frames and their digest.
fn line(s: &Settings) -> String {
    let (sim_config, out_config) = configs(s);
    let initial_state = build_initial_state(&sim_config);
    let mut saved = Saved::default();
    simulate(SimulationInputs { sim_config, out_config, initial_state }, &mut saved, &Silent);
    let mass = saved.mass.map_or("none".to_string(), |m| format!("{:016x}", bits_of(m)));
    let frames = digest(saved.frames.iter().flatten());
    format!("{} {:016x} {mass} frames {} {frames}", saved.steps, bits_of(saved.time), saved.frames.len())
}

#[derive(Default)]
struct Saved {
    frames: Vec<Vec<f64>>,
    steps: i32,
    time: f64,
    mass: Option<f64>,
}

impl StateOutputCreator for Saved {
    fn save_state(&mut self, state: &State, out_config: &OutputConfig, sim_config: &SimulationConfig) {
        self.frames.push(flat(&build_state_output(state, out_config, sim_config)));
    }

    fn save_final_results(&mut self, output: &SimulationOutput) {
        (self.steps, self.time, self.mass) = (output.num_steps, output.final_simulation_time, output.black_hole_mass);
    }
}

struct Silent;

impl SimulationLogger for Silent {
    fn log_progress(&self, _: f64, _: f64, _: i32, _: f64) {}
    fn log_timeout_warning(&self, _: f64) {}
    fn log_final_results(&self, _: &SimulationOutput) {}
}
