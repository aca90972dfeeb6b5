//! The constants and the grid of the published files, and tan along the grid as the initial state takes it.
use crate::digest::{bits_of, digest};
use crate::domain::constants::*;
use crate::domain::grid::Grid;
use std::f64::consts::PI;

pub fn print() {
    constant("BH_RADIAL_FACTOR_TRACKING", BH_RADIAL_FACTOR_TRACKING);
    constant("BH_RADIAL_FACTOR_THRESHOLD", BH_RADIAL_FACTOR_THRESHOLD);
    constant("COURANT_NUMBER", COURANT_NUMBER);
    constant("BH_SLOWDOWN_FACTOR", BH_SLOWDOWN_FACTOR);
    constant("EPS", EPS);
    constant("DISSIPATION_FACTOR", DISSIPATION_FACTOR);
    constant("INITIAL_WAVE_STEEPNESS", INITIAL_WAVE_STEEPNESS);
    for level in 5..=16 {
        let grid = Grid::from_level_of_discretization(level);
        println!("grid level {level} length {}", Grid::length_at_discretization(level));
        println!("grid level {level} delta {:016x}", bits_of(grid.delta));
        println!("grid level {level} points {}", digest(grid.points.iter()));
        println!("grid level {level} tangents {}", digest((PI / 2.0 * &grid.points).tan().iter()));
    }
}

fn constant(name: &str, value: f64) {
    println!("constant {name} {:016x}", bits_of(value));
}
