//! An advance on a record or a state that no run has. crates/run_cases/src/forged.rt has the same calls.
use super::begin::fault;
use super::lines::reply;
use super::memories::{Memories, FRAMES};
use super::plain::Machine;
use super::settings::Settings;
use super::tally::{Call, Reply, Tally};
use crate::digest::{bits_of, of_bits};
use crate::physics::states::state_of;

/// Which of the eight vectors, entry, bits of what is put there.
const STATES: [(usize, usize, u64); 20] = [
    (0, 3, 0x7FF0000000000000), (0, 0, 0x7FF8000000000000), (0, 32, 0x4000000000000000), (1, 5, 0x7FF8000000000000),
    (1, 5, 0x5FF0000000000000), (2, 7, 0x7FF8000000000000), (2, 7, 0x7FF0000000000000), (3, 4, 0x7FF8000000000000),
    (4, 9, 0x7FF8000000000000), (5, 6, 0x3F847AE147AE147B), (5, 6, 0x3F847AE147AE147C), (5, 6, 0x3FB999999999999A),
    (5, 6, 0x3FB9999999999999), (5, 6, 0x7FF8000000000000), (5, 0, 0x8000000000000000), (6, 4, 0x0000000000000000),
    (6, 31, 0x4008000000000000), (7, 2, 0x7FF8000000000000), (7, 2, 0xFFF0000000000000), (7, 31, 0x4000000000000000),
];

/// Which field of the record, what is put there, the budget: time (bits), steps, broken mark, level, interval (bits),
/// dx level, max time (bits), skip.
const RECORDS: [(u32, u64, u32); 18] = [
    (0, 0x7FF8000000000000, 2), (0, 0x7FF0000000000000, 2), (0, 0x3FEFAE147AE147AE, 2), (0, 0x3FD0000000000000, 2),
    (0, 0xBFD3333333333333, 2), (0, 0x4330000000000000, 2), (1, 2147483645, 2), (1, 2147483646, 2), (1, 4294967295, 2),
    (1, 4294967295, 0), (2, 1, 4294967295), (3, 4, 2), (3, 261, 2), (4, 0x0000000000000000, 2), (5, 6, 2),
    (6, 0x3F9E666666666666, 2), (6, 0x3F9E666666666666, 4294967295), (7, 1, 2),
];

pub fn print() {
    for (vector, i, bits) in STATES {
        let (mut tally, mut memories) = ran();
        let n = tally.settings.n();
        memories.state[vector * n + i] = of_bits(bits);
        let vectors = std::array::from_fn(|v| memories.state[v * n..(v + 1) * n].to_vec());
        tally.machine.state = state_of(tally.machine.state.time, vectors);
        line(&format!("state {vector} {i} {bits:016x}"), tally, memories, 2);
    }
    for (field, value, budget) in RECORDS {
        let (mut tally, memories) = ran();
        forge(&mut tally.machine, &mut tally.settings, field, value);
        line(&format!("record {field} {value} advance {budget}"), tally, memories, budget);
    }
}

/// Amplitude 20 after three attempts: a frame at the start, none since.
fn ran() -> (Tally, Memories) {
    let s = Settings::new(20.0, 5, 4.0, 0.25, 5, false);
    let mut tally = Tally::new(s);
    let mut memories = Memories::new();
    memories.store(&tally.machine, 1);
    tally.machine = Machine::after(&s, 3);
    memories.store(&tally.machine, 0);
    (tally, memories)
}

fn forge(machine: &mut Machine, s: &mut Settings, field: u32, value: u64) {
    match field {
        0 => machine.state.time = of_bits(value),
        1 => machine.steps = value as u32,
        2 => machine.broken = value == 1,
        3 => s.level = value as u32,
        4 => s.interval = of_bits(value),
        5 => s.dx_level = value as u32,
        6 => s.max_time = of_bits(value),
        _ => s.skip = value == 1,
    }
}

/// An advance, 5 to 7 first.
fn line(case: &str, mut tally: Tally, mut memories: Memories, budget: u32) {
    let s = tally.settings;
    let answer = match fault(&s) {
        Some(number) => Reply::Refused(number),
        None => {
            tally.machine.configure(&s);
            tally.advance(Call { budget, state: 8 * s.n(), work: 40 * s.n(), frames: FRAMES })
        }
    };
    match answer {
        Reply::Refused(_) => {}
        Reply::Full(_, frames) | Reply::Ran(_, frames) => memories.store(&tally.machine, frames),
    }
    let m = &tally.machine;
    let record = format!("record {} {:016x} {}", m.steps, bits_of(m.state.time), m.broken as u32);
    println!("forged {case} {} {record} {}", reply(&answer), memories.line(&s, !matches!(answer, Reply::Refused(_))));
}
