//! What stands in the three memories after a call. A call gets the first numbers of each; the generator filled them.
use super::plain::{numbers, Machine};
use super::settings::Settings;
use crate::arguments::{list, Range};
use crate::digest::digest;

pub const STATE: usize = 2064;
pub const WORK: usize = 10288;
pub const FRAMES: usize = 8192;

pub struct Memories {
    pub state: Vec<f64>,
    work: Vec<f64>,
    frames: Vec<f64>,
}

impl Memories {
    pub fn new() -> Memories {
        let fill = |seed, count| list(Range::Unit, seed, count);
        Memories { state: fill(7, STATE), work: fill(9, WORK), frames: fill(8, FRAMES) }
    }

    /// After a call that was not refused: its last state, and from the first number on its frames, the run's last ones.
    pub fn store(&mut self, machine: &Machine, frames: usize) {
        put(&mut self.state, &numbers(&machine.state));
        put(&mut self.frames, &machine.frames[machine.frames.len() - frames..].concat());
    }

    /// Digests of state memory, of frame memory and of what stays in work memory: all of it where the call was refused
    /// before it used any, else what is behind 40n numbers. Work memory is filled anew before each call.
    pub fn line(&self, s: &Settings, used: bool) -> String {
        let from = if used { 40 * s.n() } else { 0 };
        format!("memories {} {} {}", digest(&self.state), digest(&self.frames), digest(&self.work[from..]))
    }
}

fn put(memory: &mut [f64], values: &[f64]) {
    memory[..values.len()].copy_from_slice(values);
}
