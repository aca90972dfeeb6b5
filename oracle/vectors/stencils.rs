//! The published stencils.
use crate::digest::digest;
use crate::domain::field_vector::FieldVector;
use crate::domain::grid::Grid;
use crate::use_cases::diff::{diff, diff2, diff3_unnormalized, dissipation, set_left_neumann_bc};

pub fn print(case: &str, grid: &Grid, values: &FieldVector) {
    let line = |name: &str, v: &FieldVector| println!("{name} {case} {}", digest(v.iter()));
    line("diff", &diff(grid, values));
    line("diff2", &diff2(grid, values));
    line("diff3", &diff3_unnormalized(values));
    line("dissipation", &dissipation(values, grid));
    line("corrected", &corrected(values, grid));
}

pub fn print_neumann(case: &str, mut values: FieldVector) {
    set_left_neumann_bc(&mut values);
    println!("neumann {case} {}", digest(values.iter()));
}

/// What `dissipation` takes its second third difference of, in its own expressions.
pub fn corrected(vector: &FieldVector, grid: &Grid) -> FieldVector {
    let radial_correction = (1.0 - &grid.points.powi(2)).powi(4);
    radial_correction * diff3_unnormalized(vector)
}
