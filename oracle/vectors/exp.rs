//! exp where N is a tie and beside it, and mapped over vectors of several lengths.
use super::ties::ties;
use crate::arguments::{list, Range};
use crate::digest::{bits_of, digest};
use crate::domain::field_vector::FieldVector;
use crate::ours::exp;

pub fn print() {
    for b in ties().into_iter().flat_map(|b| [b, b - 1, b + 1]) {
        println!("exp tie {b:016x} {:016x}", bits_of(exp(f64::from_bits(b))));
    }
    for length in [0, 1, 2, 33, 129, 257] {
        let values = FieldVector::new(list(Range::Exp, 101, length));
        println!("exp all {length} {}", digest(values.exp().iter()));
    }
}
