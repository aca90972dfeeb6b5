//! 01's tally: what each advance answers, from the budgets and the lengths of the memories, beside the plain run.
use super::plain::{Machine, Outcome};
use super::settings::Settings;

/// An advance: its budget and the lengths of the three memories.
#[derive(Clone, Copy)]
pub struct Call {
    pub budget: u32,
    pub state: usize,
    pub work: usize,
    pub frames: usize,
}

pub enum Reply {
    Refused(u32),
    /// The attempts made and the frames appended.
    Full(u32, usize),
    Ran(Outcome, usize),
}

pub struct Tally {
    pub settings: Settings,
    pub machine: Machine,
}

impl Tally {
    pub fn new(settings: Settings) -> Tally {
        Tally { settings, machine: Machine::start(&settings) }
    }

    pub fn advance(&mut self, call: Call) -> Reply {
        let n = self.settings.n();
        if call.state < 8 * n || call.work < 40 * n {
            return Reply::Refused(11);
        }
        if !self.machine.ended() && self.machine.steps as u64 + call.budget as u64 > 2_147_483_647 {
            return Reply::Refused(14);
        }
        let before = self.machine.frames.len();
        for made in 0..call.budget {
            if self.machine.ended() {
                break; // the attempts that are left do nothing
            }
            let appended = self.machine.frames.len() - before;
            let left = call.frames - appended * self.settings.frame_size();
            if self.machine.next_step().is_frame_boundary && left < self.settings.frame_size() {
                return Reply::Full(made, appended);
            }
            self.machine.attempt();
        }
        Reply::Ran(self.machine.outcome(), self.machine.frames.len() - before)
    }
}
