//! Drawn searches. crates/threshold_cases/src/drawn.rt has the words drawn.
use super::table::{Row, IN, STATE, WORK};
use crate::dice::Dice;
use crate::run::settings::least_interval;

const DRAWN: u64 = 40;
const SEED: u64 = 16;

pub fn rows() -> impl Iterator<Item = Row> {
    (0..DRAWN).map(|k| Dice::new(SEED, k).row())
}

impl Dice {
    /// Low is at amplitude 0 to 30; high is above it by more at higher levels, where collapse at once takes more.
    fn row(&mut self) -> Row {
        let unit = (1.0 + self.unit()) / (1u64 << (29 + self.below(4))) as f64;
        let level = 5 + self.below(3) as u64;
        let low = 30.0 * self.unit();
        let high = low + 10.0 + self.choose(&[60.0, 120.0, 180.0]) * (level - 4) as f64 * self.unit();
        let interval = least_interval(level as u32) * (1.0 + 15.0 * self.unit());
        [
            unit.to_bits(),
            (100.0 * self.unit() - 50.0).to_bits(),
            level,
            self.max_time().to_bits(),
            interval.to_bits(),
            self.below(level as usize + 1) as u64,
            self.below(2) as u64,
            (low / unit) as u64,
            (high / unit) as u64,
            self.below(41) as u64,
            self.budget(level),
            STATE,
            WORK,
            IN,
        ]
    }

    /// Often so small that a run which does not collapse at once times out.
    fn max_time(&mut self) -> f64 {
        self.choose(&[0.1, 1.0, 4.0]) * self.unit()
    }

    fn budget(&mut self, level: u64) -> u64 {
        self.choose(&[80, 320, 640]) * (level - 4) + self.below(40) as u64
    }
}
