//! The settings of a level, drawn by a seed, and how many attempts each gets.
use crate::dice::Dice;
use crate::physics::states::{base, config, has_nan};
use crate::run::settings::{least_interval, Case, Settings};
use crate::use_cases::state_builder::build_initial_state;
use std::f64::{INFINITY, NAN};

/// Attempts times points of a drawn case, and attempts, at the most.
const POINTS: usize = 3_000_000;
const ATTEMPTS: usize = 800;

/// Level and amplitude of runs that end in collapse after many steps.
const LATE: [(u32, f64); 8] = [(5, 40.0), (6, 34.0), (7, 35.0), (8, 25.5), (9, 58.0), (10, 38.0), (11, 36.0), (12, 35.0)];
const LATE_ATTEMPTS: u32 = 6_000;

/// How many settings are drawn at a level.
fn count(level: u32) -> u64 {
    if level <= 12 { 60 } else { 40 }
}

pub fn cases(seed: u64, level: u32) -> Vec<Case> {
    let edges = Edges::of(level);
    let late = LATE.iter().filter(|late| late.0 == level).map(|&(_, amplitude)| Case {
        settings: Settings::new(amplitude, level, 4.0, 0.125, 2, false),
        attempts: LATE_ATTEMPTS,
    });
    late.chain((0..count(level)).map(|k| drawn(&mut Dice::new(seed, 1000 * level as u64 + k), level, k, &edges))).collect()
}

/// The least amplitudes whose initial state has a black hole, and holds a NaN.
struct Edges {
    black_hole: f64,
    nan: f64,
}

impl Edges {
    fn of(level: u32) -> Edges {
        let initial = |amplitude| build_initial_state(&config(level, amplitude));
        let nan = least(1.0, 1000.0, |a| has_nan(&initial(a)));
        let black_hole = least(1.0, before(nan), |a| initial(a).black_hole_mass().is_some());
        Edges { black_hole, nan }
    }
}

/// By halving, the least float above `no` for which the test says yes; it says yes for `yes`.
fn least(no: f64, yes: f64, test: impl Fn(f64) -> bool) -> f64 {
    let (mut no, mut yes) = (no.to_bits(), yes.to_bits());
    while yes - no > 1 {
        let middle = no + (yes - no) / 2;
        if test(f64::from_bits(middle)) { yes = middle } else { no = middle }
    }
    f64::from_bits(yes)
}

/// The float before a positive one.
fn before(x: f64) -> f64 {
    f64::from_bits(x.to_bits() - 1)
}

fn drawn(dice: &mut Dice, level: u32, k: u64, edges: &Edges) -> Case {
    let amplitude = amplitude(dice, k, edges);
    let most = (POINTS >> level).min(ATTEMPTS);
    let attempts = 1 + dice.below(most) as u32;
    let step = base(&config(level, amplitude));
    let settings = Settings {
        amplitude,
        level,
        max_time: max_time(dice, step, attempts),
        interval: interval(dice, k, level, step),
        dx_level: dx_level(dice, level),
        skip: dice.below(3) == 0,
    };
    Case { settings, attempts }
}

/// Each kind in turn, so that every level has them all.
fn amplitude(dice: &mut Dice, k: u64, edges: &Edges) -> f64 {
    match k % 8 {
        // disperses
        0 => 20.0 * dice.unit(),
        // collapses late, if at all
        1 => 25.0 + 35.0 * dice.unit(),
        // just below those that collapse at once, and the first of them
        2 => edges.black_hole * (1.0 - dice.choose(&[0.0, 1e-16, 1e-12, 1e-6, 1e-4, 0.03])),
        // collapses at once
        3 => edges.black_hole + (edges.nan - edges.black_hole) * dice.unit(),
        4 => -60.0 * dice.unit(),
        5 => dice.choose(&[0.0, -0.0, f64::from_bits(1), -1e-310, 1e-300, 1e-160, 1e-8]),
        // an initial state with a NaN, or nearly
        6 => dice.choose(&[edges.nan, before(edges.nan), edges.nan, -edges.nan, 1e300, INFINITY, -INFINITY, NAN]),
        _ => 60.0 * dice.unit(),
    }
}

/// Half of them within the attempts; the first step's time and the float before it.
fn max_time(dice: &mut Dice, step: f64, attempts: u32) -> f64 {
    match dice.below(20) {
        0 => 0.0,
        1 => -INFINITY,
        2 => step,
        3 => before(step),
        4 => 4.0,
        5 => NAN,
        6..=9 => INFINITY,
        _ => step * attempts as f64 * dice.unit(),
    }
}

/// Each kind in turn: the least that is accepted, none, ones of few frames, at times one that is refused, multiples.
fn interval(dice: &mut Dice, k: u64, level: u32, step: f64) -> f64 {
    let least = least_interval(level);
    match k % 9 {
        0 => least,
        1 => NAN,
        2 => INFINITY,
        3 => 2.0 * step,
        4 => dice.choose(&[before(least), f64::MAX, 1.0]),
        _ => least * (1.0 + 7.0 * dice.unit()),
    }
}

/// Any that is accepted, rarely the next or the largest number.
fn dx_level(dice: &mut Dice, level: u32) -> u32 {
    match dice.below(32) {
        0 => dice.choose(&[level + 1, u32::MAX]),
        1..=4 => level,
        _ => dice.below(level as usize + 1) as u32,
    }
}
