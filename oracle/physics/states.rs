//! A state as 01 lays it out, and what is printed of it.
use crate::digest::{bits_of, digest};
use crate::domain::constants::COURANT_NUMBER;
use crate::domain::constraints::Constraints;
use crate::domain::field_vector::FieldVector;
use crate::domain::grid::Grid;
use crate::domain::simulation_config::SimulationConfig;
use crate::domain::state::State;

pub fn config(level: u32, amplitude: f64) -> SimulationConfig {
    let grid = Grid::from_level_of_discretization(level);
    SimulationConfig { grid, initial_amplitude: amplitude, max_time: f64::INFINITY }
}

/// The clock's base: h × 0.95.
pub fn base(config: &SimulationConfig) -> f64 {
    config.grid.delta * COURANT_NUMBER
}

/// The eight vectors in 01's order.
pub fn vectors(state: &State) -> [&FieldVector; 8] {
    let c = &state.constraints;
    [
        &state.field, &state.conj_momentum, &state.alternate_mass, &c.energy_density, &c.mass, &c.radial_factor, &c.lapse,
        &c.char_speed,
    ]
}

/// The state whose eight vectors these are.
pub fn state_of(time: f64, vectors: [Vec<f64>; 8]) -> State {
    let [field, conj_momentum, alternate_mass, energy_density, mass, radial_factor, lapse, char_speed] =
        vectors.map(FieldVector::new);
    let constraints = Constraints { energy_density, mass, radial_factor, lapse, char_speed };
    State { time, field, conj_momentum, alternate_mass, constraints }
}

/// A NaN in the time or any of the eight vectors.
pub fn has_nan(state: &State) -> bool {
    state.time.is_nan() || vectors(state).iter().any(|v| v.iter().any(|x| x.is_nan()))
}

/// The case and the state.
pub fn line(case: &str, state: &State) {
    print!("{case} time {:016x} vectors", bits_of(state.time));
    for v in vectors(state) {
        print!(" {}", digest(v.iter()));
    }
    let nan = if has_nan(state) { "yes" } else { "no" };
    println!(" energy {:016x} mass {} nan {nan}", bits_of(state.total_energy()), mass(state.black_hole_mass()));
}

pub fn mass(formed: Option<f64>) -> String {
    formed.map_or("none".to_string(), |m| format!("{:016x}", bits_of(m)))
}
