//! All sequences of one order's six settings: they have one spelling. crates/order_cases/src/permutations.rt has the same.
use super::digest;
use super::lent::{call, MORE};
use std::collections::BTreeSet;

const SEQUENCES: usize = 720;

/// The floats are NaNs with a payload.
const SETTINGS: [&[u8]; 6] = [
    &[1, 0xBC, 0x9A, 0x78, 0x56, 0x34, 0x12, 0xF9, 0x7F],
    &[2, 7],
    &[3, 0xFA, 0xE9, 0xD8, 0xC7, 0xB6, 0xA5, 0xF4, 0xFF],
    &[4, 0x72, 0x61, 0x50, 0x4F, 0x3E, 0x2D, 0xFB, 0xFF],
    &[5, 3],
    &[6, 1],
];
const CALLS: [u8; 17] = [7, 8, 0, 0, 0, 0, 8, 1, 2, 3, 4, 8, 5, 0, 0, 0, 9];

/// How many sequences there are, how many bytes each has and a digest of all their bytes; the call for the first, and for how
/// many it is the same.
pub fn line() -> String {
    let orders: Vec<_> = (0..SEQUENCES).map(order).collect();
    assert_eq!(orders.iter().collect::<BTreeSet<_>>().len(), SEQUENCES);
    let n = orders[0].len();
    let calls: Vec<_> = orders.iter().map(|order| call(order, n + MORE)).collect();
    let same = calls.iter().filter(|&call| *call == calls[0]).count();
    format!("sequences {SEQUENCES} bytes {n} {} spelled{} same {same}", digest(&orders.concat()), calls[0])
}

fn order(mut k: usize) -> Vec<u8> {
    let mut settings = SETTINGS;
    for i in 0..6 {
        settings.swap(i, i + k % (6 - i));
        k /= 6 - i;
    }
    [&settings.concat(), &CALLS[..]].concat()
}
