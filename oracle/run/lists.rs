//! Every case with several lists of budgets: each line has what the plain run gives for the whole of the attempts, and
//! by the tally how many calls there were and what they answered. crates/run_cases/src/lists.rt has the same calls.
use super::begin::begin;
use super::lines::{mass, name};
use super::memories::{FRAMES, STATE, WORK};
use super::plain::{numbers, Machine};
use super::settings::{Case, Settings};
use super::tally::{Call, Reply, Tally};
use crate::arguments::{after, draw};
use crate::digest::{bits_of, digest, mixed, with};

const LISTS: u32 = 6;
/// How many budgets a list of cuts has.
const CUTS: u32 = 8;

pub fn print(k: usize, case: &Case) {
    assert!(begin(&case.settings, (STATE, WORK, FRAMES)).is_ok(), "case {k} is refused");
    let machine = Machine::after(&case.settings, case.attempts);
    for list in 0..LISTS {
        let counts = tallied(k, case, list, &machine);
        println!("case {k} list {list} {counts} {}", plain(&machine));
    }
}

/// Outcome, steps, time and mass; the digest of the state; the joined frames and their digest.
fn plain(m: &Machine) -> String {
    let state = numbers(&m.state).iter().fold(with(1, m.state.time), |d, &x| with(d, x));
    let frames = digest(m.frames.iter().flatten());
    let (o, time) = (m.outcome(), bits_of(m.state.time));
    let numbers = format!("state {state} frames {} {frames}", m.frames.len());
    format!("{} {} {time:016x} {} {numbers}", name(&o), m.steps, mass(&o))
}

#[derive(Default)]
struct Counts {
    calls: u32,
    full: u32,
    refused: u32,
}

/// The calls of a list by the tally, which must end where the plain run does.
fn tallied(k: usize, case: &Case, list: u32, machine: &Machine) -> String {
    let mut tally = Tally::new(case.settings);
    let mut counts = Counts::default();
    for budget in budgets(k, case.attempts, list) {
        if list == 3 {
            refused(&mut tally, &mut counts);
        }
        recalled(&mut tally, &mut counts, lent(&case.settings, list, budget));
    }
    assert!(tally.machine.steps == machine.steps && tally.machine.frames.len() == machine.frames.len());
    format!("calls {} full {} refused {}", counts.calls, counts.full, counts.refused)
}

/// The whole at once, ones, or cuts.
fn budgets(k: usize, attempts: u32, list: u32) -> Vec<u32> {
    match list {
        0 | 4 => vec![attempts],
        1 => vec![1; attempts as usize],
        _ => cuts(mixed(mixed(31, k as u64), list as u64), attempts),
    }
}

/// Random budgets, some of them 0, and at last what is left.
fn cuts(seed: u64, attempts: u32) -> Vec<u32> {
    let (mut s, mut left) = (seed, attempts);
    let mut budgets = Vec::new();
    for turn in 0..CUTS {
        let drawn = (draw(s) % (attempts as u64 / 3 + 2)) as u32;
        let budget = if turn + 1 == CUTS { left } else { drawn.min(left) };
        budgets.push(budget);
        left -= budget;
        s = after(s);
    }
    budgets
}

/// The memories of a list: exact or with some numbers more, and room for one frame or for several.
fn lent(s: &Settings, list: u32, budget: u32) -> Call {
    let more = if list == 5 { 3 } else { 0 };
    Call { budget, state: 8 * s.n() + more, work: 40 * s.n() + more, frames: room(s, list) }
}

/// The frame memory of a list; a skipped run needs none.
fn room(s: &Settings, list: u32) -> usize {
    match list {
        0 => FRAMES,
        1 | 4 if s.skip => 0,
        1 => s.frame_size(),
        2 => 3 * s.frame_size() + 7,
        3 => 2 * s.frame_size(),
        4 => 2 * s.frame_size() - 1,
        _ => s.frame_size() + 1,
    }
}

/// Three calls that are refused unless the run has ended: state or work memory one short, a budget too large.
fn refused(tally: &mut Tally, counts: &mut Counts) {
    let exact = lent(&tally.settings, 3, 1);
    make(tally, counts, Call { state: exact.state - 1, ..exact });
    make(tally, counts, Call { work: exact.work - 1, ..exact });
    make(tally, counts, Call { budget: 2_147_483_648, ..exact });
}

/// A call, and after full calls with the rest of the budget.
fn recalled(tally: &mut Tally, counts: &mut Counts, mut call: Call) {
    while let Reply::Full(made, _) = make(tally, counts, call) {
        assert!(made > 0);
        call.budget -= made;
    }
}

fn make(tally: &mut Tally, counts: &mut Counts, call: Call) -> Reply {
    let reply = tally.advance(call);
    counts.calls += 1;
    counts.full += matches!(reply, Reply::Full(..)) as u32;
    counts.refused += matches!(reply, Reply::Refused(_)) as u32;
    reply
}
