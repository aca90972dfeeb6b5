//! What begin answers, and what it leaves. crates/run_cases/src/begin.rt has the same calls.
use super::memories::{Memories, FRAMES, STATE, WORK};
use super::plain::Machine;
use super::settings::{least_interval, Settings};
use crate::digest::of_bits;
use crate::domain::grid::Grid;
use crate::domain::output_config::OutputConfig;
use crate::domain::simulation_config::SimulationConfig;
use crate::domain::simulation_inputs::SimulationInputs;
use crate::physics::states::{has_nan, state_of};

const LEVELS: [u32; 6] = [4, 17, 261, 0, u32::MAX, 5];
/// Zeros, -1, -infinity, the least float, NaN, infinity, the largest.
const INTERVALS: [u64; 8] = [
    0x0000000000000000, 0x8000000000000000, 0xBFF0000000000000, 0xFFF0000000000000, 0x0000000000000001, 0x7FF8000000000000,
    0x7FF0000000000000, 0x7FEFFFFFFFFFFFFF,
];
const DX_LEVELS: [u32; 4] = [6, u32::MAX, 5, 0];
/// Lengths at level 5, where a state has 264 numbers, work 1,320 and a frame of dx level 5 has 299.
const LENGTHS: [(usize, usize, usize); 9] = [
    (264, 1320, 299), (263, 1320, 299), (264, 1319, 299), (264, 1320, 298), (0, 1320, 299), (264, 0, 299), (264, 1320, 0),
    (263, 1319, 0), (STATE, WORK, FRAMES),
];
/// Level and amplitude: NaN, infinities, and at each level the largest whose initial state has no NaN, and the next.
const AMPLITUDES: [(u32, u64); 12] = [
    (5, 0x7FF8000000000000), (5, 0x7FF0000000000000), (5, 0xFFF0000000000000), (5, 0x7FEFFFFFFFFFFFFF), (5, 0x4084E273E543992E),
    (5, 0x4084E273E543992F), (6, 0x4085004B631175F5), (6, 0x4085004B631175F6), (7, 0x4085016DCD084AF5),
    (7, 0x4085016DCD084AF6), (8, 0x4085017E590A6FC9), (8, 0x4085017E590A6FCA),
];

pub fn print() {
    let all = (STATE, WORK, FRAMES);
    for level in LEVELS {
        line(&format!("level {level}"), &Settings::new(20.0, level, 1.0, 1.0, 5, false), all);
    }
    for level in 5..=16 {
        let least = least_interval(level).to_bits();
        for interval in [least - 1, least] {
            let case = format!("level {level} interval {interval:016x}");
            line(&case, &Settings::new(20.0, level, 1.0, of_bits(interval), 5, false), all);
        }
    }
    for interval in INTERVALS {
        line(&format!("interval {interval:016x}"), &Settings::new(20.0, 5, 1.0, of_bits(interval), 5, false), all);
    }
    for dx_level in DX_LEVELS {
        line(&format!("dx {dx_level}"), &Settings::new(20.0, 5, 1.0, 1.0, dx_level, false), all);
    }
    for lengths in LENGTHS {
        for skip in [false, true] {
            let (state, work, frames) = lengths;
            let case = format!("lent {state} {work} {frames} skip {}", skip as u32);
            line(&case, &Settings::new(20.0, 5, 1.0, 1.0, 5, skip), lengths);
        }
    }
    for (level, amplitude) in AMPLITUDES {
        for skip in [false, true] {
            let case = format!("level {level} amplitude {amplitude:016x} skip {}", skip as u32);
            line(&case, &Settings::new(of_bits(amplitude), level, 1.0, 1.0, 0, skip), all);
        }
    }
    (0..7).for_each(order);
}

/// All faults at once, then one fewer at a time: the first of 5, 6, 7, 11, 12, 13 is answered.
fn order(k: u32) {
    let s = Settings::new(
        if k < 6 { f64::NAN } else { 20.0 },
        if k < 1 { 4 } else { 5 },
        1.0,
        if k < 2 { 0.0 } else { 1.0 },
        if k < 3 { 6 } else { 5 },
        false,
    );
    line(&format!("order {k}"), &s, (264, if k < 4 { 1319 } else { 1320 }, if k < 5 { 298 } else { 299 }));
}

fn line(case: &str, s: &Settings, lengths: (usize, usize, usize)) {
    let mut memories = Memories::new();
    match begin(s, lengths) {
        Ok(machine) => {
            memories.store(&machine, machine.frames.len());
            println!("begin {case} accepted {} {}", machine.frames.len(), memories.line(s, true));
        }
        Err(number) => println!("begin {case} refused {number} {}", memories.line(s, number == 13)),
    }
}

pub fn begin(s: &Settings, (state, work, frames): (usize, usize, usize)) -> Result<Machine, u32> {
    if let Some(number) = fault(s) {
        return Err(number);
    }
    if state < 8 * s.n() || work < 40 * s.n() {
        return Err(11);
    }
    if !s.skip && frames < s.frame_size() {
        return Err(12);
    }
    let machine = Machine::start(s);
    if has_nan(&machine.state) { Err(13) } else { Ok(machine) }
}

/// 01's number of what the published `validate` says; it has no upper end of levels.
pub fn fault(s: &Settings) -> Option<u32> {
    if s.level > 16 {
        return Some(5);
    }
    let inputs = SimulationInputs {
        sim_config: SimulationConfig {
            grid: Grid::from_level_of_discretization(s.level),
            initial_amplitude: s.amplitude,
            max_time: s.max_time,
        },
        out_config: OutputConfig { dt: s.interval, dx_level: s.dx_level, skip_state_output: s.skip },
        // `validate` does not look at the state
        initial_state: state_of(0.0, Default::default()),
    };
    let message = inputs.validate().err()?;
    let numbers = [("Level of discretization", 5), ("Output dt", 6), ("Output dx level", 7)];
    numbers.iter().find(|(start, _)| message.starts_with(start)).map(|(_, number)| *number)
}
