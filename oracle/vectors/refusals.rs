//! What the calls answer where a level, a length or an index is refused: our reading of 01, which numbers these 5 and 11.
//! The level is tested first. A refused call leaves its memory as it was.
use super::stencils::corrected;
use crate::arguments::{list, Range};
use crate::digest::digest;
use crate::domain::field_vector::FieldVector;
use crate::domain::grid::Grid;
use crate::use_cases::diff::{diff, diff2, diff3_unnormalized, dissipation, set_left_neumann_bc};

const NAMES: [&str; 5] = ["diff", "diff2", "diff3", "dissipation", "neumann"];

/// Level, and the lengths of the vector, of the half dissipation and of the result.
const CASES: [(u32, usize, usize, usize); 17] = [
    (5, 33, 33, 33), (4, 17, 17, 17), (4, 33, 33, 33), (17, 33, 33, 33), (261, 33, 33, 33), (4, 32, 34, 34), (17, 34, 32, 32),
    (5, 32, 33, 33), (5, 34, 33, 33), (5, 33, 32, 32), (5, 33, 34, 34), (5, 32, 32, 32), (5, 34, 34, 34), (6, 33, 33, 33),
    (5, 33, 32, 33), (5, 4, 33, 33), (5, 5, 33, 33),
];

pub fn print() {
    for (op, name) in NAMES.iter().enumerate() {
        for (level, length, half, room) in CASES {
            case(op, name, level, length, half, room);
        }
    }
    for level in [4, 17, 261] {
        println!("outside level {level} length 0");
        println!("outside level {level} delta 7ff8000000000000");
        println!("outside level {level} point 7ff8000000000000");
    }
    for level in [5, 16] {
        println!("beyond level {level} point 7ff8000000000000");
    }
}

/// The memories are 80 numbers each, of which the call gets the first `length`, `half` and `room`.
fn case(op: usize, name: &str, level: u32, length: usize, half: usize, room: usize) {
    let mut vector = list(Range::Unit, 7, 80);
    let mut middle = list(Range::Unit, 9, 80);
    let mut out = list(Range::Unit, 8, 80);
    let number = answer(op, level, length, half, room);
    if number == 0 {
        carry_out(op, &mut vector[..length], &mut middle, &mut out);
    }
    println!(
        "{name} level {level} lengths {length} {room} answer {number} left {} {} {}",
        digest(&vector),
        digest(&middle),
        digest(&out)
    );
}

/// `set_left_neumann_bc` has no level and wants five numbers; only `dissipation` is lent the half.
fn answer(op: usize, level: u32, length: usize, half: usize, room: usize) -> u32 {
    if op == 4 {
        return if length < 5 { 11 } else { 0 };
    }
    if level < 5 || level > 16 {
        return 5;
    }
    let n = (1 << level) + 1;
    let half_fits = op != 3 || half == n;
    if length == n && room == n && half_fits { 0 } else { 11 }
}

fn carry_out(op: usize, vector: &mut [f64], half: &mut [f64], out: &mut [f64]) {
    let grid = Grid::from_level_of_discretization(5);
    let mut values = FieldVector::new(vector.to_vec());
    let result: Vec<f64> = match op {
        0 => diff(&grid, &values).into_iter().collect(),
        1 => diff2(&grid, &values).into_iter().collect(),
        2 => diff3_unnormalized(&values).into_iter().collect(),
        3 => {
            let middle: Vec<f64> = corrected(&values, &grid).into_iter().collect();
            half[..middle.len()].copy_from_slice(&middle);
            dissipation(&values, &grid).into_iter().collect()
        }
        _ => {
            set_left_neumann_bc(&mut values);
            vector.copy_from_slice(&values[..]);
            return;
        }
    };
    out[..result.len()].copy_from_slice(&result);
}
