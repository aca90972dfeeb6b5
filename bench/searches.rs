//! Times searches of the library capi, the same runs by begin and advance of that library, and the same search over the Rust
//! with 01's functions, interleaved. bench/run compiles it among the files of oracle/build.
mod capi;
mod domain;
mod mantissas;
mod ours;
mod samples;
mod use_cases;

use capi::Asked;
use domain::grid::Grid;
use domain::output_config::OutputConfig;
use domain::simulation_config::SimulationConfig;
use samples::{median, now};
use std::hint::black_box;
use use_cases::adaptive_time_step::TimeStep;
use use_cases::integration::rk4_step;
use use_cases::state_builder::build_initial_state;

/// 2^-36, of which 2^42 are amplitude 64.
const UNIT: f64 = 1.0 / (1u64 << 36) as f64;
const MAX_TIME: f64 = 4.0;

/// Both ends and the halvings made.
type Bracket = (u64, u64, u32);

/// Level, the high end's amplitude, halvings; samples of each, an odd number; searches in a sample.
const SEARCHES: [(u32, u64, u32, usize, usize); 5] =
    [(5, 40, 0, 41, 100), (5, 40, 40, 41, 4), (7, 35, 0, 41, 6), (7, 35, 40, 21, 1), (9, 60, 4, 7, 1)];

fn main() {
    println!("searches from amplitude 20 up, before time 4; ms of processor time, medians of interleaved samples; in brackets what a");
    println!("search adds to its runs, the median over the samples, and how many times faster it is than over the Rust");
    for (level, high, halvings, samples, times) in SEARCHES {
        let asked = Asked { unit: UNIT, low: 20 << 36, high: high << 36, halvings, budget: 1_000_000 };
        let [search, calls, rust] = timed(level, &asked, samples, times);
        let added = median(search.iter().zip(&calls).map(|(s, c)| 100.0 * (s / c - 1.0)).collect());
        let [search, calls, rust] = [search, calls, rust].map(median);
        print!("level {level}, to {high}, {halvings} halvings: search {search:.3}; its {} runs by begin and advance {calls:.3}", halvings + 2);
        println!(" ({added:+.2} %); search over the Rust {rust:.3} ({:.2})", rust / search);
    }
}

/// The samples of the library's search, of its runs by begin and advance, and of the search over the Rust, in ms.
fn timed(level: u32, asked: &Asked, samples: usize, times: usize) -> [Vec<f64>; 3] {
    let mut library = Library::new(level);
    let mut taken = [const { Vec::new() }; 3];
    for turn in 0..samples {
        let mut found = [(0, 0, 0); 3];
        // another is the first in each turn
        for i in (0..3).map(|i| (i + turn) % 3) {
            let start = now();
            for _ in 0..times {
                found[i] = black_box(match i {
                    0 => library.search(asked),
                    1 => halved(asked, |units| library.collapses(asked, units)),
                    _ => halved(asked, |units| rust_collapses(level, asked, units)),
                });
            }
            taken[i].push((now() - start) / 1e6 / times as f64);
        }
        assert!(found[1..] == [found[0]; 2], "level {level}: the brackets differ");
    }
    taken
}

/// The halvings over runs that collapse, or time out.
fn halved(a: &Asked, mut collapses: impl FnMut(u64) -> bool) -> Bracket {
    assert!(!collapses(a.low) && collapses(a.high), "no bracket");
    let (mut low, mut high) = (a.low, a.high);
    for _ in 0..a.halvings {
        let middle = (low + high) / 2;
        *if collapses(middle) { &mut high } else { &mut low } = middle;
    }
    (low, high, a.halvings)
}

/// The library's record, settings in it, and the memories that every call is lent.
struct Library {
    record: Vec<f64>,
    state: Vec<f64>,
    work: Vec<f64>,
}

impl Library {
    fn new(level: u32) -> Library {
        let mut record = vec![0.0; capi::RECORD];
        record[..6].copy_from_slice(&[0.0, level as f64, MAX_TIME, 1.0, 0.0, 1.0]);
        Library { record, state: vec![0.0; capi::state_size(level)], work: vec![0.0; capi::work_size(level)] }
    }

    fn search(&mut self, a: &Asked) -> Bracket {
        let mut found = [0.0; capi::FOUND_SIZE];
        let answer = capi::search(&self.record, a, &mut self.state, &mut self.work, &mut found);
        assert!(answer == capi::FOUND, "refused {answer}");
        (found[0] as u64, found[1] as u64, found[2] as u32)
    }

    fn collapses(&mut self, a: &Asked, units: u64) -> bool {
        let mut record = self.record.clone();
        record[0] = units as f64 * a.unit;
        let begun = capi::begin(&mut record, &mut self.state, &mut self.work, &mut []);
        assert!(begun == capi::BEGUN, "refused {begun}");
        match capi::advance(&mut record, &mut self.state, &mut self.work, &mut [], a.budget) {
            capi::COLLAPSED => true,
            capi::TIMED_OUT => false,
            answer => panic!("answered {answer}"),
        }
    }
}

/// The loop of the published `simulate` without output.
fn rust_collapses(level: u32, a: &Asked, units: u64) -> bool {
    let grid = Grid::from_level_of_discretization(level);
    let sim_config = SimulationConfig { grid, initial_amplitude: units as f64 * a.unit, max_time: MAX_TIME };
    let out_config = OutputConfig { dt: 1.0, dx_level: 0, skip_state_output: true };
    let mut state = build_initial_state(&sim_config);
    let mut made = 0;
    while state.black_hole_mass().is_none() && !(made > 0 && state.time > MAX_TIME) {
        let step = TimeStep::next(&sim_config, &out_config, &state);
        state = rk4_step(&sim_config, &state, step.delta);
        made += 1;
        assert!(made < a.budget, "spent");
    }
    state.black_hole_mass().is_some()
}
