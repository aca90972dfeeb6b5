//! Cases of the crate vectors. crates/vectors_cases prints the same lines.
mod exp;
mod functions;
mod grid;
mod lists;
mod refusals;
mod stencils;
mod ties;

use crate::arguments::{vector, KINDS, SPIKES};
use crate::domain::grid::Grid;

pub fn print() {
    grid::print();
    functions::print();
    exp::print();
    for level in 5..=8 {
        (0..KINDS).for_each(|kind| on_vector(level, kind));
    }
    (SPIKES..SPIKES + 33).for_each(|kind| on_vector(5, kind));
    lists::print_short();
    refusals::print();
}

fn on_vector(level: u32, kind: u64) {
    let grid = Grid::from_level_of_discretization(level);
    let values = vector(&grid, kind);
    let case = format!("level {level} vector {kind}");
    stencils::print(&case, &grid, &values);
    lists::print(&case, &values);
    stencils::print_neumann(&case, values);
}
