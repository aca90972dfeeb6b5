//! 02's request 1, the search for the threshold amplitude: a loop of halvings over the plain run.
use crate::run::begin::begin;
use crate::run::plain::{Machine, Outcome};
use crate::run::settings::Settings;

/// The largest end.
const HIGHEST: u64 = 1 << 42;
const MOST_HALVINGS: u32 = 40;
/// The most attempts that a run which has not ended takes after 0 steps.
const MOST_ATTEMPTS: u32 = 2_147_483_647;

/// What a search is asked for: amplitudes are whole numbers of `unit`, `state` and `work` are lengths.
pub struct Asked {
    pub unit: f64,
    pub settings: Settings,
    pub low: u64,
    pub high: u64,
    pub halvings: u32,
    pub budget: u32,
    pub state: usize,
    pub work: usize,
}

pub enum Why {
    Used,
    Adjacent,
    Neither,
    Refused(u32),
}

pub struct Bracket {
    pub low: u64,
    pub high: u64,
    pub made: u32,
    pub why: Why,
}

impl Asked {
    /// The bracket, or the number of a refusal: 15, begin's for low, begin's for high, 16.
    pub fn search(&self) -> Result<Bracket, u32> {
        if !self.has_ends() {
            return Err(15);
        }
        let low = self.begin(self.low)?;
        let high = self.begin(self.high)?;
        let is_bracket = matches!(self.run(low), Ok(Outcome::Timeout)) && matches!(self.run(high), Ok(Outcome::Collapse(_)));
        if is_bracket { Ok(self.halve()) } else { Err(16) }
    }

    fn has_ends(&self) -> bool {
        self.low < self.high && self.high <= HIGHEST && self.halvings <= MOST_HALVINGS
    }

    /// A skip run, with no frame memory; the amplitude and the skip of the settings are not looked at.
    fn begin(&self, units: u64) -> Result<Machine, u32> {
        let settings = Settings { amplitude: units as f64 * self.unit, skip: true, ..self.settings };
        begin(&settings, (self.state, self.work, 0))
    }

    fn run(&self, mut machine: Machine) -> Result<Outcome, u32> {
        if !machine.ended() && self.budget > MOST_ATTEMPTS {
            return Err(14);
        }
        for _ in 0..self.budget {
            if machine.ended() {
                break; // the attempts that are left do nothing
            }
            machine.attempt();
        }
        Ok(machine.outcome())
    }

    /// From ends that are a bracket.
    fn halve(&self) -> Bracket {
        let mut b = Bracket { low: self.low, high: self.high, made: 0, why: Why::Used };
        while b.made < self.halvings {
            if b.high - b.low == 1 {
                return Bracket { why: Why::Adjacent, ..b };
            }
            let middle = (b.low + b.high) / 2;
            match self.begin(middle).and_then(|machine| self.run(machine)) {
                Ok(Outcome::Timeout) => b.low = middle,
                Ok(Outcome::Collapse(_)) => b.high = middle,
                Ok(_) => return Bracket { why: Why::Neither, ..b },
                Err(number) => return Bracket { why: Why::Refused(number), ..b },
            }
            b.made += 1;
        }
        b
    }
}
