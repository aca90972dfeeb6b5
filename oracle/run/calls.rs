//! Single calls: what the tally answers, and what the calls leave. crates/run_cases/src/calls.rt has the same.
use super::lines::reply;
use super::memories::{Memories, FRAMES};
use super::settings::{Case, Settings};
use super::tally::{Call, Reply, Tally};
use crate::arguments::{after, draw};
use crate::digest::{bits_of, mixed};

/// Cases whose runs end: timeout, collapse, broken, at levels 5 to 8.
const CALLED: [usize; 9] = [3, 5, 6, 12, 13, 23, 24, 27, 33];
const TURNS: u64 = 16;

pub fn print(cases: &[Case]) {
    for k in CALLED {
        let s = cases[k].settings;
        let mut session = Session { k, tally: Tally::new(s), memories: Memories::new() };
        session.memories.store(&session.tally.machine, session.tally.machine.frames.len());
        println!("case {k} begin {} {}", session.tally.machine.frames.len(), session.memories.line(&s, true));
        let mut p = mixed(37, k as u64);
        for _ in 0..TURNS {
            session.make(drawn(&s, cases[k].attempts, draw(p)));
            p = after(p);
        }
        session.limits();
    }
}

struct Session {
    k: usize,
    tally: Tally,
    memories: Memories,
}

impl Session {
    fn make(&mut self, call: Call) {
        let Call { budget, state, work, frames } = call;
        let answer = self.tally.advance(call);
        match answer {
            Reply::Refused(_) => {}
            Reply::Full(_, frames) | Reply::Ran(_, frames) => self.memories.store(&self.tally.machine, frames),
        }
        let m = &self.tally.machine;
        let left = self.memories.line(&self.tally.settings, !matches!(answer, Reply::Refused(_)));
        let record = format!("record {} {:016x} {}", m.steps, bits_of(m.state.time), m.broken as u32);
        println!("case {} advance {budget} lent {state} {work} {frames} {} {record} {left}", self.k, reply(&answer));
    }

    /// Budgets at the limit of 14: one too large, the largest, and the largest of 32 bits, which an ended run accepts.
    fn limits(&mut self) {
        let largest = 2_147_483_647 - self.tally.machine.steps;
        self.make(exact(&self.tally.settings, largest + 1));
        self.make(exact(&self.tally.settings, largest));
        self.make(exact(&self.tally.settings, u32::MAX));
    }
}

fn exact(s: &Settings, budget: u32) -> Call {
    Call { budget, state: 8 * s.n(), work: 40 * s.n(), frames: FRAMES }
}

/// A call by a draw.
fn drawn(s: &Settings, attempts: u32, p: u64) -> Call {
    let budget = match p % 8 {
        0 => 0,
        1 => 1,
        2 => 2_147_483_648,
        _ => (p / 8 % (attempts as u64 / 3 + 2)) as u32,
    };
    let state = match p / 65536 % 8 {
        0 => 8 * s.n() - 1,
        1 => 8 * s.n() + 3,
        _ => 8 * s.n(),
    };
    let work = match p / 524288 % 8 {
        0 => 40 * s.n() - 1,
        1 => 40 * s.n() + 3,
        _ => 40 * s.n(),
    };
    Call { budget, state, work, frames: room(s.frame_size(), p / 4194304 % 8) }
}

/// Frame memory for no frame, for one, for two, for three, or as much as there is.
fn room(size: usize, which: u64) -> usize {
    match which {
        0 => 0,
        1 => size - 1,
        2 => size,
        3 => 2 * size - 1,
        4 => 2 * size,
        5 => 3 * size,
        _ => FRAMES,
    }
}
