//! What was compared.
use std::fmt;

#[derive(Default)]
pub struct Counts {
    pub settings: u64,
    pub calls: u64,
    pub begun: u64,
    pub refused: u64,
    pub full: u64,
    pub collapse: u64,
    pub broken: u64,
    pub timeout: u64,
    pub spent: u64,
    pub steps: u64,
    pub frames: u64,
    pub numbers: u64,
}

impl Counts {
    pub fn add(&mut self, other: &Counts) {
        self.settings += other.settings;
        self.calls += other.calls;
        self.begun += other.begun;
        self.refused += other.refused;
        self.full += other.full;
        self.collapse += other.collapse;
        self.broken += other.broken;
        self.timeout += other.timeout;
        self.spent += other.spent;
        self.steps += other.steps;
        self.frames += other.frames;
        self.numbers += other.numbers;
    }
}

impl fmt::Display for Counts {
    fn fmt(&self, f: &mut fmt::Formatter) -> fmt::Result {
        write!(f, "{} settings, {} calls (", self.settings, self.calls)?;
        write!(f, "{} begun, {} refused, {} full, {} collapse, ", self.begun, self.refused, self.full, self.collapse)?;
        write!(f, "{} broken, {} timeout, {} spent), ", self.broken, self.timeout, self.spent)?;
        write!(f, "{} steps, {} frames, {} numbers equal", self.steps, self.frames, self.numbers)
    }
}
