//! The minimum, and the first index at or below a bound.
//! At the published threshold the index is the published one; at other bounds it is our reading, `position`.
use crate::digest::{bits_of, of_bits};
use crate::domain::constraints::Constraints;
use crate::domain::field_vector::FieldVector;

const BOUNDS: [u64; 7] = [
    0x0000000000000000, 0x8000000000000000, 0xBFE0000000000000, 0x0000000000000001, 0x7FF0000000000000,
    0xFFF0000000000000, 0x7FF8000000000000,
];

pub fn print(case: &str, values: &FieldVector) {
    println!("min {case} {:016x}", bits_of(values.min()));
    println!("threshold {case} {}", index(collapse(values)));
    for b in BOUNDS {
        let at = values.iter().position(|x| *x <= of_bits(b));
        println!("bound {b:016x} {case} {}", index(at));
    }
}

pub fn print_short() {
    short(&[0.0, -0.0]);
    short(&[-0.0, 0.0]);
    short(&[f64::NAN]);
    short(&[f64::NAN, 1.0]);
    short(&[f64::INFINITY, f64::NAN]);
    short(&[f64::INFINITY, f64::NEG_INFINITY]);
    short(&[1.0, 0.01, 0.0]);
    short(&[1.0, of_bits(0x3F847AE147AE147C), of_bits(0x3F847AE147AE147A)]);
}

fn short(values: &[f64]) {
    let values = FieldVector::new(values.to_vec());
    println!("short min {:016x}", bits_of(values.min()));
    println!("short threshold {}", index(collapse(&values)));
}

/// The index that the published `black_hole_mass` picks, by a mass that counts the points.
fn collapse(values: &FieldVector) -> Option<usize> {
    let zeros = || FieldVector::zeros(values.len());
    let constraints = Constraints {
        energy_density: zeros(),
        mass: (0..values.len()).map(|i| i as f64).collect(),
        radial_factor: values.clone(),
        lapse: zeros(),
        char_speed: zeros(),
    };
    constraints.black_hole_mass().map(|m| m as usize)
}

fn index(at: Option<usize>) -> String {
    at.map_or("none".to_string(), |i| i.to_string())
}
