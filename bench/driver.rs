//! Times the static library of vectors_c beside Rust, interleaved in one run, and prints medians.
//! bench/run compiles it among the files of oracle/build, whose `domain` and `use_cases` are the published Rust.
mod domain;
mod mantissas;
mod ours;
mod samples;
mod use_cases;

use domain::field_vector::FieldVector;
use domain::grid::Grid;
use samples::{median, now};
use std::cell::RefCell;
use std::hint::black_box;

extern "C" {
    fn vectors_exp_all(values: *mut f64, length: usize);
    fn vectors_diff(level: u32, vector: *const f64, length: usize, out: *mut f64, room: usize) -> u32;
}

/// Samples of each function; an odd number, so that the median is one of them.
const SAMPLES: usize = 41;
/// How many values a sample works through, at the least.
const VALUES: usize = 1_000_000;

fn main() {
    println!("ns of processor time per value, median of {SAMPLES} interleaved samples; in brackets the library's time over the other's");
    for length in [129, 8193] {
        exp(length);
    }
    for level in [5, 7, 10, 13, 16] {
        diff(level);
    }
}

/// exp mapped over one slice, filled anew before each call; the copy is in every time.
fn exp(length: usize) {
    let source: Vec<f64> = (0..length).map(|i| -4.0 * i as f64 / length as f64).collect();
    let table = ours::fractions();
    let lent = RefCell::new(source.clone());
    let on_lent = |f: &dyn Fn(&mut [f64])| {
        let values = &mut *lent.borrow_mut();
        values.copy_from_slice(&source);
        f(black_box(values));
        digest(values)
    };
    let mut library = || on_lent(&|values| unsafe { vectors_exp_all(values.as_mut_ptr(), values.len()) });
    let mut rust = || on_lent(&|values| exp_all(table, values));
    let mut rust_adding = || on_lent(&|values| exp_all_adding(table, values));
    let name = format!("exp over {length}");
    compare(&name, length, &mut [("library", &mut library), ("Rust", &mut rust), ("Rust, rounding by a sum", &mut rust_adding)]);
}

/// The formula as the oracle has it.
#[inline(never)]
fn exp_all(table: &[f64; 256], values: &mut [f64]) {
    for v in values {
        *v = ours::exp_by(table, *v);
    }
}

/// The same, but N comes from adding and subtracting 1.5 × 2^52: without SSE 4.1 `round_ties_even` is a call.
#[inline(never)]
fn exp_all_adding(table: &[f64; 256], values: &mut [f64]) {
    for v in values {
        *v = exp_adding(table, *v);
    }
}

fn exp_adding(table: &[f64; 256], x: f64) -> f64 {
    if !(x > -708.0 && x < 709.0) {
        return ours::exp_by(table, x);
    }
    let [a, b, c] = [0x3FF71547652B82FE, 0x3FE62E42FEE00000, 0x3DEA39EF35793C76].map(f64::from_bits);
    let shifted = x * (256.0 * a) + 6755399441055744.0;
    let nearest = shifted - 6755399441055744.0;
    let n = shifted.to_bits() as i32 as i64;
    let r = (x - nearest * (b / 256.0)) - nearest * (c / 256.0);
    let p = 1.0 + r * (1.0 + r * (1.0 / 2.0 + r * (1.0 / 6.0 + r * (1.0 / 24.0))));
    (table[(n & 255) as usize] * p) * f64::from_bits((((n >> 8) + 1023) as u64) << 52)
}

/// The first difference: the published function, which allocates its result, and its loop on a lent slice.
fn diff(level: u32) {
    let grid = Grid::from_level_of_discretization(level);
    let n = grid.len();
    let vector: Vec<f64> = (0..n).map(|i| (i as f64 * 0.37).sin()).collect();
    let field = FieldVector::new(vector.clone());
    let mut lent = vec![0.0; n];
    let mut library = || {
        let answer = unsafe { vectors_diff(level, black_box(vector.as_ptr()), n, lent.as_mut_ptr(), n) };
        assert!(answer == 0, "refused {answer}");
        digest(&lent)
    };
    let mut published = || digest(&use_cases::diff::diff(black_box(&grid), black_box(&field))[..]);
    let mut out = vec![0.0; n];
    let mut on_slice = || {
        diff_into(grid.delta, black_box(&vector), black_box(&mut out));
        digest(&out)
    };
    let name = format!("diff at level {level}");
    compare(&name, n, &mut [("library", &mut library), ("published", &mut published), ("its loop, lent", &mut on_slice)]);
}

#[inline(never)]
fn diff_into(h: f64, v: &[f64], out: &mut [f64]) {
    let n = v.len();
    let w = 12.0 * h;
    let out = &mut out[..n];
    out[0] = (-25.0 * v[0] + 48.0 * v[1] - 36.0 * v[2] + 16.0 * v[3] - 3.0 * v[4]) / w;
    out[1] = (-3.0 * v[0] - 10.0 * v[1] + 18.0 * v[2] - 6.0 * v[3] + v[4]) / w;
    for i in 2..n - 2 {
        out[i] = (v[i - 2] - 8.0 * v[i - 1] + 8.0 * v[i + 1] - v[i + 2]) / w;
    }
    out[n - 2] = (-v[n - 5] + 6.0 * v[n - 4] - 18.0 * v[n - 3] + 10.0 * v[n - 2] + 3.0 * v[n - 1]) / w;
    out[n - 1] = (3.0 * v[n - 5] - 16.0 * v[n - 4] + 36.0 * v[n - 3] - 48.0 * v[n - 2] + 25.0 * v[n - 1]) / w;
}

/// Three of the numbers, so that a call's result is used at little cost.
fn digest(values: &[f64]) -> u64 {
    let n = values.len();
    values[0].to_bits() ^ values[n / 2].to_bits().rotate_left(1) ^ values[n - 1].to_bits().rotate_left(2)
}

type Timed<'a> = (&'a str, &'a mut dyn FnMut() -> u64);

/// Takes the samples turn by turn and prints one line. All functions must answer alike.
fn compare(name: &str, values: usize, functions: &mut [Timed]) {
    let calls = VALUES.div_ceil(values);
    let mut times = vec![Vec::new(); functions.len()];
    for _ in 0..SAMPLES {
        let mut digests = Vec::new();
        for (k, (_, f)) in functions.iter_mut().enumerate() {
            let start = now();
            let mut d = 0;
            for _ in 0..calls {
                d = black_box(f());
            }
            times[k].push((now() - start) / (calls * values) as f64);
            digests.push(d);
        }
        assert!(digests.iter().all(|&d| d == digests[0]), "{name}: the answers differ");
    }
    let medians: Vec<f64> = times.into_iter().map(median).collect();
    print!("{name}: {} {:.2}", functions[0].0, medians[0]);
    for (k, (label, _)) in functions.iter().enumerate().skip(1) {
        print!("; {label} {:.2} ({:.2})", medians[k], medians[0] / medians[k]);
    }
    println!();
}
