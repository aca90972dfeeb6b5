//! The loop of the published `simulate` without output, so many steps of it. Compiled among the files of either Rust.
use crate::domain::grid::Grid;
use crate::domain::output_config::OutputConfig;
use crate::domain::simulation_config::SimulationConfig;
use crate::domain::state::State;
use crate::use_cases::adaptive_time_step::TimeStep;
use crate::use_cases::integration::rk4_step;
use crate::use_cases::state_builder::build_initial_state;

pub struct Rust {
    sim_config: SimulationConfig,
    out_config: OutputConfig,
    initial: State,
}

impl Rust {
    pub fn begin(level: u32, amplitude: f64) -> Rust {
        let grid = Grid::from_level_of_discretization(level);
        let sim_config = SimulationConfig { grid, initial_amplitude: amplitude, max_time: f64::INFINITY };
        let out_config = OutputConfig { dt: 1.0, dx_level: 0, skip_state_output: true };
        let initial = build_initial_state(&sim_config);
        Rust { sim_config, out_config, initial }
    }

    /// The field after so many steps from the initial state.
    pub fn run(&self, steps: usize) -> Vec<f64> {
        let mut state = self.initial.clone();
        let mut made = 0;
        while state.black_hole_mass().is_none() && made < steps && !(state.time > self.sim_config.max_time) {
            let step = TimeStep::next(&self.sim_config, &self.out_config, &state);
            state = rk4_step(&self.sim_config, &state, step.delta);
            made += 1;
        }
        assert!(made == steps, "the run ended");
        state.field[..].to_vec()
    }
}
