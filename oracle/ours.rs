//! 01's exp, tan and powers, written from its text alone. Every operation rounds once; none is fused.
use std::sync::OnceLock;

/// The bits that 01 gives for a, b and c.
const A: u64 = 0x3FF71547652B82FE;
const B: u64 = 0x3FE62E42FEE00000;
const C: u64 = 0x3DEA39EF35793C76;

/// x² is x·x, x⁴ is (x²)·(x²), x^-1 is 1/x; 01 has no other power.
pub fn powi(x: f64, power: i32) -> f64 {
    match power {
        2 => x * x,
        4 => (x * x) * (x * x),
        -1 => 1.0 / x,
        _ => panic!("01 has no power {power}"),
    }
}

/// The table T: entry j is m / 2^52. Made once, at its first use.
pub fn fractions() -> &'static [f64; 256] {
    static TABLE: OnceLock<[f64; 256]> = OnceLock::new();
    TABLE.get_or_init(|| std::array::from_fn(|j| crate::mantissas::largest(j) as f64 / 4503599627370496.0))
}

pub fn exp(x: f64) -> f64 {
    exp_by(fractions(), x)
}

/// exp with the table handed in, so that a loop fetches it once.
#[inline]
pub fn exp_by(table: &[f64; 256], x: f64) -> f64 {
    if x.is_nan() {
        return f64::NAN;
    }
    if x >= 709.0 {
        return f64::INFINITY;
    }
    if x <= -708.0 {
        return 0.0;
    }
    let (a, b, c) = (f64::from_bits(A), f64::from_bits(B), f64::from_bits(C));
    let nearest = (x * (256.0 * a)).round_ties_even();
    let n = nearest as i64;
    let j = n.rem_euclid(256);
    let k = (n - j) / 256;
    let r = (x - nearest * (b / 256.0)) - nearest * (c / 256.0);
    let p = 1.0 + r * (1.0 + r * (1.0 / 2.0 + r * (1.0 / 6.0 + r * (1.0 / 24.0))));
    (table[j as usize] * p) * power_of_two(k)
}

/// 2^k for k from -1022 to 1023.
fn power_of_two(k: i64) -> f64 {
    f64::from_bits(((k + 1023) as u64) << 52)
}

pub fn tan(y: f64) -> f64 {
    let z = y * y;
    let sine = y * horner(z, 10, |q| 2 * q + 1);
    let cosine = horner(z, 11, |q| 2 * q);
    sine / cosine
}

/// The sum over q = 0 to last of (-1)^q / (of(q))! × z^q, innermost first.
fn horner(z: f64, last: u32, of: impl Fn(u32) -> u32) -> f64 {
    (0..last).rev().fold(coefficient(last, of(last)), |inner, q| coefficient(q, of(q)) + z * inner)
}

/// 1 divided by the exact factorial of n, then signed.
fn coefficient(q: u32, n: u32) -> f64 {
    let size = 1.0 / factorial(n);
    if q % 2 == 0 { size } else { -size }
}

/// n! for n up to 22: each is a float exactly, since it has a power of two in it.
fn factorial(n: u32) -> f64 {
    let exact: u128 = (1..=n as u128).product();
    let rounded = exact as f64;
    assert!(rounded as u128 == exact, "{n}! is no float");
    rounded
}
