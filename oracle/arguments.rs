//! The arguments of the cases, by a small generator. crates/cases/src/arguments.rt does the same.
use crate::digest::{mixed, of_bits};
use crate::domain::field_vector::FieldVector;
use crate::domain::grid::Grid;

/// The generator's next state; a state is below 2^40.
fn next(s: u64) -> u64 {
    mixed(s, 1)
}

/// 64 bits of state s and the state after it.
fn pattern(s: u64) -> u64 {
    (s / 256) * (1 << 32) + next(s) / 256
}

/// A whole number below 2^32: the low half of the pattern.
pub fn draw(s: u64) -> u64 {
    next(s) / 256
}

/// The state after the two that `pattern` uses.
pub fn after(s: u64) -> u64 {
    next(next(s))
}

/// A number from -1 up to 1, from the 52 low bits of the pattern.
pub fn unit(s: u64) -> f64 {
    of_bits(0x3FF0000000000000 + pattern(s) % (1 << 52)) * 2.0 - 3.0
}

/// Where a list of numbers is drawn from.
#[derive(Clone, Copy)]
pub enum Range {
    /// Any pattern of bits.
    Patterns,
    /// -710 to 711.
    Exp,
    /// About seven entries of exp's table to either side.
    NearZero,
    /// 0 to pi/2.
    Quarter,
    /// -10 to 10.
    Ten,
    /// -1 to 1.
    Unit,
}

fn argument(range: Range, s: u64) -> f64 {
    match range {
        Range::Patterns => of_bits(pattern(s)),
        Range::Exp => 0.5 + 710.5 * unit(s),
        Range::NearZero => 0.02 * unit(s),
        Range::Quarter => 0.7853981633974483 * (1.0 + unit(s)),
        Range::Ten => 10.0 * unit(s),
        Range::Unit => unit(s),
    }
}

/// `count` numbers of a range, by the generator's states from seed on.
pub fn list(range: Range, seed: u64, count: usize) -> Vec<f64> {
    let mut s = seed;
    let mut values = Vec::new();
    for _ in 0..count {
        values.push(argument(range, s));
        s = after(s);
    }
    values
}

/// How many kinds of vectors there are before the spikes.
pub const KINDS: u64 = 11;
/// Kind SPIKES + k is random with +infinity at point k.
pub const SPIKES: u64 = 16;

/// Entry i, at the point r, of a vector of a kind, with the generator in state s.
fn entry(kind: u64, r: f64, i: usize, s: u64) -> f64 {
    match kind {
        0 => r * (1.0 - r) * (r - 0.3),
        1 => unit(s),
        2 => of_bits(pattern(s)),
        3 => 1e300 * unit(s),
        4 => 1.7e308 * unit(s),
        5 => 1e-310 * unit(s),
        6 => -0.0,
        7 => 0.0 * unit(s),
        8 if i % 11 == 5 => unit(s) / 0.0,
        9 if i % 13 == 6 => f64::NAN,
        10 => 1.0 - r,
        _ if kind >= SPIKES && i as u64 == kind - SPIKES => f64::INFINITY,
        _ => unit(s),
    }
}

pub fn vector(grid: &Grid, kind: u64) -> FieldVector {
    let mut s = mixed(mixed(17, grid.level as u64), kind);
    let mut values = Vec::new();
    for i in 0..grid.len() {
        values.push(entry(kind, grid.points[i], i, s));
        s = after(s);
    }
    FieldVector::new(values)
}

/// Patterns at the edges: zeros, subnormals, the least normal, ones, the limits of exp and pi/2 with neighbours,
/// the largest, infinities, a NaN.
pub const SPECIAL: [u64; 36] = [
    0x0000000000000000, 0x8000000000000000, 0x0000000000000001, 0x8000000000000001,
    0x000FFFFFFFFFFFFF, 0x800FFFFFFFFFFFFF, 0x0010000000000000, 0x8010000000000000,
    0x0008000000000000, 0x3C90000000000000, 0x3FF0000000000000, 0xBFF0000000000000,
    0x4000000000000000, 0x3FE62E42FEFA39EF, 0x40862800000000FF, 0x4086280000000001,
    0x4086280000000000, 0x408627FFFFFFFFFF, 0x40862E42FEFA39EF, 0xC086200000000001,
    0xC086200000000000, 0xC0861FFFFFFFFFFF, 0xC086232BDD7ABCD2, 0xC0874910D52D3051,
    0x3FF921FB54442D17, 0x3FF921FB54442D18, 0x3FF921FB54442D19, 0xBFF921FB54442D18,
    0x3FF921FB54442D16, 0x400921FB54442D18, 0x7FEFFFFFFFFFFFFF, 0xFFEFFFFFFFFFFFFF,
    0x7FF0000000000000, 0xFFF0000000000000, 0x7FF8000000000000, 0xFFF8000000000001,
];
