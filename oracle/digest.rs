//! Bits of floats and the digest of a list of them, as in crates/vectors/src/bits.rt and crates/cases/src/digest.rt.

/// A prime below 2^40, so that every product below fits 64 bits.
pub const PRIME: u64 = 1099511627689;

pub fn mixed(d: u64, x: u64) -> u64 {
    (d * 1000003 + x) % PRIME
}

/// The bits of x; of every NaN 7FF8000000000000.
pub fn bits_of(x: f64) -> u64 {
    if x.is_nan() { 0x7FF8000000000000 } else { x.to_bits() }
}

/// The float of a pattern; every NaN's pattern gives the one NaN with its sign clear.
pub fn of_bits(b: u64) -> f64 {
    f64::from_bits(bits_of(f64::from_bits(b)))
}

/// d with one more float: its high half, then its low half.
pub fn with(d: u64, x: f64) -> u64 {
    let b = bits_of(x);
    mixed(mixed(d, b >> 32), b % (1 << 32))
}

/// The digest of a list starts at 1.
pub fn digest<'a>(values: impl IntoIterator<Item = &'a f64>) -> u64 {
    values.into_iter().fold(1, |d, &x| with(d, x))
}
