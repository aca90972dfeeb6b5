//! A run of the library beside the tally: every call made by both, and all that it answers and leaves compared.
use super::counts::Counts;
use crate::capi;
use crate::digest::bits_of;
use crate::run::begin::begin;
use crate::run::lines::reply;
use crate::run::plain::{numbers, Machine, Outcome};
use crate::run::settings::Settings;
use crate::run::tally::{Call, Reply, Tally};

/// Numbers behind each memory that no call may change.
pub const MORE: usize = 3;

pub struct Session {
    name: String,
    settings: Settings,
    /// From the accepted begin on.
    tally: Option<Tally>,
    record: Vec<f64>,
    state: Vec<f64>,
    work: Vec<f64>,
    /// What the numbers of state memory and record were before the begin, and those behind them stay.
    fill: f64,
    /// The calls made, with what was expected.
    calls: Vec<String>,
    joined: usize,
    counts: Counts,
}

/// What a call must answer and leave.
struct Expected {
    number: u32,
    record: Vec<f64>,
    /// How many of the run's last frames it wrote.
    frames: usize,
    /// Whether it may change work memory.
    works: bool,
}

impl Session {
    pub fn new(name: String, settings: Settings, fill: f64) -> Session {
        let (n, s) = (settings.n(), settings);
        let mut record = vec![fill; capi::RECORD + MORE];
        let skip = if s.skip { 1.0 } else { 0.0 };
        record[..6].copy_from_slice(&[s.amplitude, s.level as f64, s.max_time, s.interval, s.dx_level as f64, skip]);
        let session = Session {
            name, settings, tally: None, record, fill,
            state: vec![fill; 8 * n + MORE],
            work: vec![fill; 40 * n + MORE],
            calls: Vec::new(),
            joined: 0,
            counts: Counts { settings: 1, ..Counts::default() },
        };
        session.sizes();
        session
    }

    fn sizes(&self) {
        let s = self.settings;
        let told = [capi::state_size(s.level), capi::work_size(s.level)];
        if told != [8 * s.n(), 40 * s.n()] || s.dx_level <= 16 && capi::frame_size(s.dx_level) != s.frame_size() {
            self.fail("the sizes differ");
        }
    }

    pub fn counts(self) -> Counts {
        Counts { steps: self.steps() as u64, ..self.counts }
    }

    pub fn ended(&self) -> bool {
        self.tally.as_ref().is_some_and(|t| t.machine.ended())
    }

    pub fn steps(&self) -> u32 {
        self.tally.as_ref().map_or(0, |t| t.machine.steps)
    }

    /// A begin that lends so much, work and frame memory filled anew; whether it is accepted. The budget is not used.
    pub fn begin(&mut self, lent: Call, fill: f64) -> bool {
        let before = self.record.clone();
        let mut frames = self.filled(lent, fill);
        let answer = capi::begin(
            &mut self.record, &mut self.state[..lent.state], &mut self.work[..lent.work], &mut frames[..lent.frames],
        );
        let expected = match begin(&self.settings, (lent.state, lent.work, lent.frames)) {
            Ok(machine) => {
                self.counts.begun += 1;
                let written = machine.frames.len();
                let record = laid_out(&before, &machine, written, 0, 0.0);
                self.tally = Some(Tally { settings: self.settings, machine });
                Expected { number: capi::BEGUN, record, frames: written, works: true }
            }
            Err(number) => {
                self.counts.refused += 1;
                Expected { number, record: before, frames: 0, works: number == 13 }
            }
        };
        self.log("begin", lent, &format!("answers {}", expected.number));
        self.check(answer, &expected, &frames, fill);
        self.tally.is_some()
    }

    /// An advance after an accepted begin, work and frame memory filled anew.
    pub fn advance(&mut self, call: Call, fill: f64) -> Reply {
        let before = self.record.clone();
        let idle = call.budget == 0 || self.ended();
        let mut frames = self.filled(call, fill);
        let answer = capi::advance(
            &mut self.record, &mut self.state[..call.state], &mut self.work[..call.work], &mut frames[..call.frames],
            call.budget,
        );
        let tally = self.tally.as_mut().unwrap();
        let told = tally.advance(call);
        let (number, written, made, mass) = match told {
            Reply::Refused(number) => (number, 0, 0, 0.0),
            Reply::Full(made, written) => (capi::FULL, written, made, 0.0),
            Reply::Ran(Outcome::Collapse(mass), written) => (capi::COLLAPSED, written, 0, mass),
            Reply::Ran(Outcome::Broken, written) => (capi::BROKE, written, 0, 0.0),
            Reply::Ran(Outcome::Timeout, written) => (capi::TIMED_OUT, written, 0, 0.0),
            Reply::Ran(Outcome::Spent, written) => (capi::SPENT, written, 0, 0.0),
        };
        let refused = matches!(told, Reply::Refused(_));
        let record = if refused { before } else { laid_out(&before, &tally.machine, written, made, mass) };
        self.count(&told);
        self.log(&format!("advance {}", call.budget), call, &reply(&told));
        self.check(answer, &Expected { number, record, frames: written, works: !refused && !idle }, &frames, fill);
        told
    }

    /// Fills work memory; a frame memory.
    fn filled(&mut self, lent: Call, fill: f64) -> Vec<f64> {
        self.work.fill(fill);
        vec![fill; lent.frames + MORE]
    }

    fn log(&mut self, what: &str, lent: Call, told: &str) {
        self.calls.push(format!("{what} lent {} {} {}: {told}", lent.state, lent.work, lent.frames));
    }

    fn count(&mut self, told: &Reply) {
        match told {
            Reply::Refused(_) => self.counts.refused += 1,
            Reply::Full(..) => self.counts.full += 1,
            Reply::Ran(Outcome::Collapse(_), _) => self.counts.collapse += 1,
            Reply::Ran(Outcome::Broken, _) => self.counts.broken += 1,
            Reply::Ran(Outcome::Timeout, _) => self.counts.timeout += 1,
            Reply::Ran(Outcome::Spent, _) => self.counts.spent += 1,
        }
    }

    fn check(&mut self, answer: u32, expected: &Expected, frames: &[f64], fill: f64) {
        if answer != expected.number {
            self.fail(&format!("answer: expected {}, library {answer}", expected.number));
        }
        self.same("record", expected.record.iter().copied(), &self.record);
        let state = self.tally.as_ref().map_or(Vec::new(), |t| numbers(&t.machine.state));
        self.same("state", state.into_iter().chain(std::iter::repeat(self.fill)), &self.state);
        self.joined += expected.frames;
        let run: &[Vec<f64>] = self.tally.as_ref().map_or(&[], |t| &t.machine.frames);
        if run.len() != self.joined {
            self.fail(&format!("joined frames: expected {}, library {}", run.len(), self.joined));
        }
        let written = run[run.len() - expected.frames..].iter().flatten().copied();
        self.same("frame memory", written.chain(std::iter::repeat(fill)), frames);
        let from = if expected.works { 40 * self.settings.n() } else { 0 };
        self.same("unused work memory", std::iter::repeat(fill), &self.work[from..]);
        self.counts.calls += 1;
        self.counts.frames += expected.frames as u64;
        self.counts.numbers += (self.record.len() + self.state.len() + frames.len() + self.work.len() - from) as u64;
    }

    fn same(&self, what: &str, expected: impl Iterator<Item = f64>, library: &[f64]) {
        for (i, (e, &l)) in expected.zip(library).enumerate() {
            if bits_of(e) != bits_of(l) {
                self.fail(&format!("{what} at {i}: expected {:016x}, library {:016x}", bits_of(e), bits_of(l)));
            }
        }
    }

    fn fail(&self, why: &str) -> ! {
        let s = self.settings;
        println!("{}", self.name);
        for (what, x) in [("amplitude", s.amplitude), ("max time", s.max_time), ("interval", s.interval)] {
            println!("{what} {x:?} ({:016x})", x.to_bits());
        }
        println!("level {}, dx level {}, skip {}", s.level, s.dx_level, s.skip as u32);
        self.calls.iter().for_each(|call| println!("{call}"));
        println!("{why}");
        std::process::exit(1);
    }
}

/// The record that a call leaves which is not refused.
fn laid_out(before: &[f64], m: &Machine, frames: usize, attempts: u32, mass: f64) -> Vec<f64> {
    let broken = if m.broken { 1.0 } else { 0.0 };
    let progress = [m.state.time, m.steps as f64, broken, frames as f64, attempts as f64, mass];
    [&before[..6], &progress, &before[capi::RECORD..]].concat()
}
