//! The 256 mantissas of exp's table by 01's rule: entry j is the largest whole m with m^256 <= 2^(j + 52 × 256).

/// The largest m for j: a float guess, corrected by exact comparisons.
pub fn largest(j: usize) -> u64 {
    let mut m = ((j as f64 / 256.0).exp2() * 4503599627370496.0) as u64;
    while !allowed(m, j) {
        m -= 1;
    }
    while allowed(m + 1, j) {
        m += 1;
    }
    m
}

/// Whether m^256 <= 2^(j + 52 × 256).
fn allowed(m: u64, j: usize) -> bool {
    let mut power = digits(m);
    for _ in 0..8 {
        power = product(&power, &power);
    }
    at_most_power_of_two(&power, j + 52 * 256)
}

/// m in base 2^32, lowest digit first, no zero on top.
fn digits(m: u64) -> Vec<u32> {
    trimmed(vec![m as u32, (m >> 32) as u32])
}

fn product(x: &[u32], y: &[u32]) -> Vec<u32> {
    let mut z = vec![0u32; x.len() + y.len()];
    for (i, &a) in x.iter().enumerate() {
        let mut carry = 0u64;
        for (k, &b) in y.iter().enumerate() {
            let t = a as u64 * b as u64 + z[i + k] as u64 + carry;
            z[i + k] = t as u32;
            carry = t >> 32;
        }
        z[i + y.len()] = carry as u32;
    }
    trimmed(z)
}

fn trimmed(mut x: Vec<u32>) -> Vec<u32> {
    while x.last() == Some(&0) {
        x.pop();
    }
    x
}

/// x <= 2^e: x has at most e bits, or it is 2^e itself.
fn at_most_power_of_two(x: &[u32], e: usize) -> bool {
    let Some(top) = x.last() else { return true };
    let bits = 32 * x.len() - top.leading_zeros() as usize;
    let only_one_bit = x.iter().map(|d| d.count_ones()).sum::<u32>() == 1;
    bits <= e || (bits == e + 1 && only_one_bit)
}
