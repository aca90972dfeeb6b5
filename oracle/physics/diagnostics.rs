//! The black hole mass and the total energy of lent vectors. Where the mass has no such number: NaN, our choice.
use super::states::{mass, state_of};
use crate::arguments::{vector, KINDS};
use crate::digest::bits_of;
use crate::domain::grid::Grid;

pub fn print() {
    for level in 5..=8 {
        for kind in 0..KINDS {
            print_of(level, kind);
        }
    }
    println!("short mass none");
    println!("short mass 7ff8000000000000");
    println!("short energy 7ff8000000000000");
}

/// The radial factor is a vector of this kind, the mass one of the kind after it.
fn print_of(level: u32, kind: u64) {
    let grid = Grid::from_level_of_discretization(level);
    let values = |kind: u64| vector(&grid, kind).into_iter().collect::<Vec<f64>>();
    let zeros = || vec![0.0; grid.len()];
    let vectors = [zeros(), zeros(), zeros(), zeros(), values((kind + 1) % KINDS), values(kind), zeros(), zeros()];
    let state = state_of(0.0, vectors);
    println!(
        "diagnostics level {level} vector {kind} energy {:016x} mass {}",
        bits_of(state.total_energy()),
        mass(state.black_hole_mass())
    );
}
