//! 01's plain run: its machine, over the published initial state, step, clock and frames.
use super::settings::Settings;
use crate::domain::grid::Grid;
use crate::domain::output_config::OutputConfig;
use crate::domain::simulation_config::SimulationConfig;
use crate::domain::state::State;
use crate::domain::state_output::StateOutput;
use crate::physics::states::{has_nan, vectors};
use crate::use_cases::adaptive_time_step::TimeStep;
use crate::use_cases::integration::rk4_step;
use crate::use_cases::state_builder::build_initial_state;
use crate::use_cases::state_output_builder::build_state_output;

pub struct Machine {
    sim_config: SimulationConfig,
    out_config: OutputConfig,
    pub state: State,
    pub steps: u32,
    pub broken: bool,
    pub frames: Vec<Vec<f64>>,
}

pub enum Outcome {
    Collapse(f64),
    Broken,
    Timeout,
    Spent,
}

impl Machine {
    /// The initial state, steps 0, its frame unless skipped.
    pub fn start(s: &Settings) -> Machine {
        let (sim_config, out_config) = configs(s);
        let state = build_initial_state(&sim_config);
        let mut m = Machine { sim_config, out_config, state, steps: 0, broken: false, frames: Vec::new() };
        if !s.skip {
            m.append_frame();
        }
        m
    }

    /// Other settings for what follows.
    pub fn configure(&mut self, s: &Settings) {
        (self.sim_config, self.out_config) = configs(s);
    }

    /// The plain run after so many attempts.
    pub fn after(s: &Settings, attempts: u32) -> Machine {
        let mut m = Machine::start(s);
        (0..attempts).for_each(|_| m.attempt());
        m
    }

    pub fn attempt(&mut self) {
        if self.ended() {
            return;
        }
        let step = self.next_step();
        let next = rk4_step(&self.sim_config, &self.state, step.delta);
        if has_nan(&next) {
            self.broken = true;
            return;
        }
        self.state = next;
        self.steps += 1;
        if step.is_frame_boundary {
            self.append_frame();
        }
    }

    pub fn ended(&self) -> bool {
        self.state.black_hole_mass().is_some() || self.late() || self.broken
    }

    pub fn outcome(&self) -> Outcome {
        match self.state.black_hole_mass() {
            Some(mass) => Outcome::Collapse(mass),
            None if self.broken => Outcome::Broken,
            None if self.late() => Outcome::Timeout,
            None => Outcome::Spent,
        }
    }

    pub fn next_step(&self) -> TimeStep {
        TimeStep::next(&self.sim_config, &self.out_config, &self.state)
    }

    fn late(&self) -> bool {
        self.steps >= 1 && self.state.time > self.sim_config.max_time
    }

    fn append_frame(&mut self) {
        self.frames.push(flat(&build_state_output(&self.state, &self.out_config, &self.sim_config)));
    }
}

pub fn configs(s: &Settings) -> (SimulationConfig, OutputConfig) {
    let grid = Grid::from_level_of_discretization(s.level);
    let sim_config = SimulationConfig { grid, initial_amplitude: s.amplitude, max_time: s.max_time };
    let out_config = OutputConfig { dt: s.interval, dx_level: s.dx_level, skip_state_output: s.skip };
    (sim_config, out_config)
}

/// The eight vectors, one after another as in state memory.
pub fn numbers(state: &State) -> Vec<f64> {
    vectors(state).iter().flat_map(|v| v.iter().copied()).collect()
}

/// A frame's numbers, in the field order of `StateOutput`.
pub fn flat(o: &StateOutput) -> Vec<f64> {
    let mut numbers = vec![o.time];
    let before = [
        &o.field, &o.radial_gradient, &o.conj_momentum, &o.mass, &o.radial_factor, &o.lapse, &o.char_speed, &o.energy_density,
    ];
    before.iter().for_each(|v| numbers.extend_from_slice(v));
    numbers.push(o.total_energy);
    numbers.extend_from_slice(&o.alternate_mass);
    numbers
}
