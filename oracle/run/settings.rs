//! The settings of the runs and how many attempts each gets. crates/run_cases/src/settings.rt has the same.
use crate::arguments::{after, draw, unit};
use crate::digest::mixed;
use std::f64::{INFINITY, NAN};

#[derive(Clone, Copy)]
pub struct Settings {
    pub amplitude: f64,
    pub level: u32,
    pub max_time: f64,
    pub interval: f64,
    pub dx_level: u32,
    pub skip: bool,
}

pub struct Case {
    pub settings: Settings,
    pub attempts: u32,
}

impl Settings {
    pub fn new(amplitude: f64, level: u32, max_time: f64, interval: f64, dx_level: u32, skip: bool) -> Settings {
        Settings { amplitude, level, max_time, interval, dx_level, skip }
    }

    /// The grid's points.
    pub fn n(&self) -> usize {
        (1 << self.level) + 1
    }

    /// The numbers of a frame.
    pub fn frame_size(&self) -> usize {
        2 + 9 * ((1 << self.dx_level) + 1)
    }
}

/// The least interval that a level accepts: its rounded product with the number of points is not below 1.
pub fn least_interval(level: u32) -> f64 {
    let n = ((1u32 << level) + 1) as f64;
    let guess = (1.0 / n).to_bits();
    (guess - 8..).map(f64::from_bits).find(|x| x * n >= 1.0).unwrap()
}

const fn bits(b: u64) -> f64 {
    f64::from_bits(b)
}

/// Amplitude, level, max time, interval, dx level, skip; attempts.
const TABLE: [(f64, u32, f64, f64, u32, bool, u32); 34] = [
    // amplitude 0, max time 0: timeout after the first step, not before it
    (0.0, 5, 0.0, 1.0, 5, true, 1),
    (0.0, 5, 0.0, 1.0, 5, false, 5),
    // amplitude -0; the interval is the spacing
    (-0.0, 5, 1.0, 0.03125, 5, false, 40),
    // disperses
    (20.0, 5, 4.0, 0.25, 3, false, 160),
    // neighbouring amplitudes: timeout, collapse
    (bits(0x4041C6FE5EF70CA2), 5, 4.0, 1.0, 5, true, 200),
    (bits(0x4041C6FE5EF70CA3), 5, 4.0, 1.0, 5, true, 200),
    // the least interval
    (20.0, 5, 2.0, bits(0x3F9F07C1F07C1F08), 0, false, 120),
    // the interval is twice the base step
    (30.0, 5, 1.0, 0.059375, 1, false, 60),
    // collapse: max time that time, the float below it, 0.47, which the step before passes
    (40.0, 5, bits(0x3FE0266666666665), 1.0, 4, false, 30),
    (40.0, 5, bits(0x3FE0266666666664), 1.0, 4, false, 30),
    (40.0, 5, 0.47, 1.0, 4, false, 30),
    // collapse at once, the second with the largest amplitude whose initial state has no NaN
    (60.0, 5, 4.0, 1.0, 5, false, 3),
    (bits(0x4084E273E543992E), 5, 4.0, 1.0, 5, false, 3),
    // interval NaN, not skipped and skipped
    (10.0, 5, 4.0, NAN, 5, false, 2),
    (10.0, 5, 4.0, NAN, 5, true, 50),
    // interval infinity, max time NaN
    (10.0, 5, NAN, INFINITY, 2, false, 60),
    // max time -infinity
    (10.0, 5, -INFINITY, 0.03125, 5, false, 4),
    // max time the first step's time, and the float below it
    (5.0, 5, 0.0296875, 1.0, 5, true, 4),
    (5.0, 5, bits(0x3F9E666666666665), 1.0, 5, true, 4),
    // a negative amplitude, max time infinity, interval 0.1
    (-20.0, 5, INFINITY, 0.1, 2, false, 100),
    // a subnormal amplitude, interval 0.3
    (bits(0x00001268D0D0D0D0), 5, 1.0, 0.3, 5, false, 20),
    // the largest interval, no attempts
    (10.0, 5, 4.0, f64::MAX, 5, false, 0),
    // level 6: late collapse; collapse with the least interval; slow steps near a black hole
    (30.0, 6, 6.0, 1.0, 5, true, 200),
    (35.0, 6, 6.0, bits(0x3F8F81F81F81F820), 6, false, 120),
    (50.0, 6, 0.5, 0.05, 0, false, 300),
    // level 7: neighbouring amplitudes, timeout and collapse
    (bits(0x40398CB0A7F663FC), 7, 4.0, 1.0, 7, true, 600),
    (bits(0x40398CB0A7F663FD), 7, 4.0, 1.0, 7, true, 600),
    // the least interval, whose exact product is below 1; a wide interval
    (35.0, 7, 4.0, bits(0x3F7FC07F01FC07F0), 7, false, 300),
    (10.0, 7, 1.0, 0.5, 3, false, 140),
    (10.0, 7, 1.0, 0.01, 6, false, 30),
    // level 8
    (20.0, 8, 4.0, bits(0x3F6FE01FE01FE020), 8, false, 30),
    (35.0, 8, 4.0, 1.0, 8, true, 100),
    (325.0, 8, 4.0, 1.0, 0, false, 2),
    (20.0, 8, 0.2, 0.1, 4, false, 80),
];

const DRAWN: u32 = 24;

pub fn cases() -> Vec<Case> {
    let written = TABLE.iter().map(|&(amplitude, level, max_time, interval, dx_level, skip, attempts)| {
        let settings = Settings::new(amplitude, level, max_time, interval, dx_level, skip);
        Case { settings, attempts }
    });
    written.chain((0..DRAWN).map(drawn)).collect()
}

/// Settings by the generator: levels 5 to 7, amplitudes 0 to 60, max time 0 to 2, 1 to 16 times the least interval.
fn drawn(k: u32) -> Case {
    let a = mixed(29, k as u64);
    let b = after(a);
    let c = after(b);
    let d = after(c);
    let level = 5 + (draw(d) % 3) as u32;
    let settings = Settings {
        amplitude: 30.0 * (1.0 + unit(a)),
        level,
        max_time: 1.0 + unit(b),
        interval: least_interval(level) * (1.0 + 7.5 * (1.0 + unit(c))),
        dx_level: (draw(d) / 8 % (level as u64 + 1)) as u32,
        skip: draw(d) / 64 % 4 == 0,
    };
    Case { settings, attempts: (draw(d) / 256 % 120) as u32 }
}
