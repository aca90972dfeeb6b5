//! Arguments x whose rounded product x × (256 × a) lies exactly half way between two whole numbers.

const HALVES: [i64; 24] = [
    0, 1, 2, 3, 4, 127, 128, 255, 256, 383, 511, 1000, 1001, 4096, 10000, 32767, 65535, 65536, 100001, 131072, 200000,
    240001, 261000, 261401,
];

/// For n + 1/2 and -(n + 1/2) the first such float near it, where there is one; as bits.
pub fn ties() -> Vec<u64> {
    HALVES.iter().flat_map(|&n| [n as f64 + 0.5, -(n as f64 + 0.5)]).filter_map(near).collect()
}

fn near(half: f64) -> Option<u64> {
    let factor = 256.0 * f64::from_bits(0x3FF71547652B82FE);
    let guess = (half / factor).to_bits();
    (guess - 8..=guess + 8).find(|&b| f64::from_bits(b) * factor == half)
}
