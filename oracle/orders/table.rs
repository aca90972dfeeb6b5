//! The orders of the cases, by number. crates/order_cases/src/table.rt and orders.rt have the same.
use super::draft::{Asked, Draft, OUT, WHOLE};
use crate::arguments::{after, draw, unit};
use crate::digest::mixed;
use crate::run::settings::least_interval;
use std::f64::{INFINITY, NAN};

pub fn drafts() -> Vec<Draft> {
    let mut all = Vec::new();
    all.extend((0..=45).map(|length| Draft { length, ..base() }));
    all.extend((0..=18).map(|length| Draft { commands: 0x1100000000000000, length, ..base() }));
    all.extend((34..=43).map(|length| Draft { commands: 0x1234567100000000, length, ..base() }));
    all.extend((0..=14).map(|length| Draft { commands: 0x8D89000000000000, length, ..base() }));
    all.extend((0..143).map(|k| Draft { code: 1 + k / 11, place: (k % 11) as u32, ..base() }));
    all.extend((0..10).map(|place| Draft { code: OUT, place, ..base() }));
    all.extend(SEQUENCES.map(|commands| Draft { commands, ..base() }));
    all.extend(LENGTHS.map(|(commands, fill, length)| filled(commands, fill, length)));
    all.extend(SWITCHES.map(|skip| Draft { asked: Asked { skip, ..base().asked }, ..base() }));
    all.extend(refused().map(|asked| Draft { asked, ..base() }));
    all.extend(PATTERNS.map(pattern));
    all.extend(runs());
    all.extend((0..DRAWN).map(drawn));
    all.extend(PAYLOADS.map(payloads));
    all
}

fn asked(amplitude: f64, level: u8, max_time: f64, interval: f64, dx_level: u8, skip: u8) -> Asked {
    let bits = crate::digest::bits_of;
    Asked { amplitude: bits(amplitude), level, max_time: bits(max_time), interval: bits(interval), dx_level, skip }
}

fn draft(asked: Asked, commands: u64, even: u32, odd: u32) -> Draft {
    Draft { asked, commands, even, odd, place: 16, code: 0, fill: 0, length: WHOLE }
}

/// A good order of ten commands and 45 bytes.
const COMMANDS: u64 = 0x1234567889000000;

fn base() -> Draft {
    draft(asked(20.0, 5, 1.0, 0.5, 0, 0), COMMANDS, 3, 100)
}

/// The settings in other orders, no advance, eight advances; commands too early, too late and missing.
const SEQUENCES: [u64; 36] = [
    0x2345617889000000, 0x3456127889000000, 0x4561237889000000, 0x5612347889000000, 0x6123457889000000, 0x6543217889000000,
    0x5432167889000000, 0x4321657889000000, 0x3216547889000000, 0x2165437889000000, 0x1654327889000000, 0x2143657889000000,
    0x1234567900000000, 0x1234567888888889, 0x6543217888800090, 0x0000000000000000, 0x9000000000000000, 0x7000000000000000,
    0x8000000000000000, 0x7900000000000000, 0x9700000000000000, 0xA000000000000000, 0xB000000000000000, 0xC000000000000000,
    0xD000000000000000, 0x6D00000000000000, 0x1234569000000000, 0x1234567990000000, 0x1234567970000000, 0x1234567980000000,
    0x123456791A000000, 0x12345679A0000000, 0x12345679B0000000, 0x12345679C0000000, 0x12345679D0000000, 0x1234567000000000,
];

/// Commands, fill and length. The longest good order has 4,095 bytes: 812 advances.
const LENGTHS: [(u64, usize, usize); 12] = [
    (0x1234567E90000000, 4090, WHOLE),
    (0x1234567E90000000, 4090, 4094),
    (0x1234567E90000000, 4090, 4096),
    (0x1234567E90000000, 4090, 4097),
    (0x1234567E88000000, 4090, 4095),
    (0x1234567E88000000, 4090, 4096),
    (0x1234567E88000000, 4090, 4097),
    (0x1234567E90000000, 4095, WHOLE),
    (0x0000000000000000, 0, 4095),
    (0x0000000000000000, 0, 4096),
    (0x0000000000000000, 0, 4097),
    (0x0000000000000000, 0, 4100),
];

fn filled(commands: u64, fill: usize, length: usize) -> Draft {
    Draft { fill, length, ..draft(asked(20.0, 5, 1.0, 1.0, 0, 1), commands, 0, 1) }
}

const SWITCHES: [u8; 4] = [1, 2, 128, 255];

/// Settings that begin refuses, and beside some the nearest that it accepts.
fn refused() -> [Asked; 48] {
    let below = |level| f64::from_bits(least_interval(level).to_bits() - 1);
    [
        // 5
        asked(20.0, 4, 1.0, 0.5, 0, 0),
        asked(20.0, 17, 1.0, 0.5, 0, 0),
        asked(20.0, 0, 1.0, 0.5, 0, 0),
        asked(20.0, 255, 1.0, 0.5, 0, 0),
        asked(NAN, 4, 1.0, 0.0, 5, 0),
        asked(NAN, 17, 1.0, 0.0, 18, 1),
        // 6
        asked(20.0, 5, 1.0, 0.0, 0, 0),
        asked(20.0, 5, 1.0, -0.0, 0, 0),
        asked(20.0, 5, 1.0, -1.0, 0, 1),
        asked(20.0, 5, 1.0, -INFINITY, 0, 0),
        asked(20.0, 5, 1.0, bits(1), 0, 0),
        asked(20.0, 5, 1.0, 0.03, 0, 0),
        asked(20.0, 5, 1.0, below(5), 0, 0),
        asked(20.0, 5, 0.2, least_interval(5), 0, 0),
        asked(20.0, 6, 1.0, below(6), 0, 0),
        asked(20.0, 6, 0.2, least_interval(6), 0, 0),
        asked(20.0, 7, 1.0, below(7), 0, 0),
        asked(20.0, 7, 0.1, least_interval(7), 0, 0),
        asked(20.0, 8, 1.0, below(8), 0, 0),
        asked(20.0, 16, 1.0, below(16), 17, 1),
        asked(NAN, 5, 1.0, 0.0, 6, 0),
        // 7
        asked(20.0, 5, 1.0, 0.5, 6, 0),
        asked(20.0, 5, 1.0, 0.5, 255, 1),
        asked(20.0, 7, 1.0, 0.5, 8, 0),
        asked(20.0, 8, 1.0, 0.5, 9, 0),
        asked(NAN, 16, 1.0, 0.5, 17, 0),
        // 11: the program lends for level 7
        asked(20.0, 8, 1.0, 0.5, 0, 0),
        asked(20.0, 8, 1.0, least_interval(8), 8, 1),
        asked(20.0, 9, 1.0, 0.5, 9, 0),
        asked(20.0, 12, 1.0, 0.5, 0, 1),
        asked(20.0, 16, 1.0, 0.5, 16, 0),
        asked(NAN, 8, 1.0, 0.5, 0, 0),
        asked(bits(0x4085017E590A6FCA), 8, 1.0, 0.5, 0, 0),
        // 13: the first amplitude of a level whose initial state holds a NaN, and the float below it
        asked(bits(0x4084E273E543992E), 5, 1.0, 0.5, 0, 0),
        asked(bits(0x4084E273E543992F), 5, 1.0, 0.5, 0, 0),
        asked(bits(0x4084E273E543992F), 5, 1.0, 0.5, 0, 1),
        asked(bits(0xC084E273E543992F), 5, 1.0, 0.5, 0, 1),
        asked(bits(0x4085004B631175F5), 6, 1.0, 0.5, 0, 0),
        asked(bits(0x4085004B631175F6), 6, 1.0, 0.5, 0, 0),
        asked(bits(0x4085016DCD084AF5), 7, 1.0, 0.5, 0, 0),
        asked(bits(0x4085016DCD084AF6), 7, 1.0, 0.5, 0, 0),
        asked(bits(0x4085016DCD084AF6), 7, 1.0, 0.5, 7, 1),
        asked(NAN, 5, 1.0, 0.5, 0, 0),
        asked(NAN, 7, 1.0, 0.5, 7, 1),
        asked(INFINITY, 5, 1.0, 0.5, 0, 0),
        asked(-INFINITY, 6, 1.0, 0.5, 0, 0),
        asked(f64::MAX, 7, 1.0, 0.5, 0, 0),
        asked(NAN, 5, NAN, NAN, 0, 0),
    ]
}

const fn bits(b: u64) -> f64 {
    f64::from_bits(b)
}

/// Patterns of bits as amplitude, max time or interval (0, 1, 2), skipped or not: NaNs, infinities, the least and the
/// largest floats.
const PATTERNS: [(u64, u32, u8); 24] = [
    (0x7FF0000000000001, 0, 0),
    (0xFFF8000000000000, 0, 1),
    (0xFFFFFFFFFFFFFFFF, 0, 0),
    (0x8000000000000000, 0, 0),
    (0x0000000000000001, 0, 0),
    (0x8010000000000000, 0, 1),
    (0x7FF0000000000001, 1, 0),
    (0xFFF8000000000000, 1, 1),
    (0x7FFFFFFFFFFFFFFF, 1, 0),
    (0x7FF0000000000000, 1, 1),
    (0xFFF0000000000000, 1, 0),
    (0x7FEFFFFFFFFFFFFF, 1, 1),
    (0x8000000000000000, 1, 0),
    (0x0000000000000001, 1, 0),
    (0xBFF0000000000000, 1, 1),
    (0x7FF0000000000001, 2, 0),
    (0x7FF0000000000001, 2, 1),
    (0xFFF8000000000000, 2, 0),
    (0xFFFFFFFFFFFFFFFF, 2, 1),
    (0x7FF8000000000000, 2, 0),
    (0x7FF0000000000000, 2, 0),
    (0x7FEFFFFFFFFFFFFF, 2, 0),
    (0xFFEFFFFFFFFFFFFF, 2, 0),
    (0x3F9F07C1F07C1F07, 2, 1),
];

fn pattern((bits, which, skip): (u64, u32, u8)) -> Draft {
    let mut asked = asked(20.0, 5, 1.0, 0.5, 0, skip);
    match which {
        0 => asked.amplitude = bits,
        1 => asked.max_time = bits,
        _ => asked.interval = bits,
    }
    draft(asked, COMMANDS, 3, 45)
}

const LAST: u32 = 2_147_483_647;
/// One to eight advances.
const ONE: u64 = 0x1234567890000000;
const TWO: u64 = 0x1234567889000000;
const FOUR: u64 = 0x1234567888890000;
const EIGHT: u64 = 0x1234567888888889;

fn runs() -> [Draft; 48] {
    [
        // 01's own order; not skipped; amplitude -0
        draft(asked(0.0, 5, 0.0, 1.0, 5, 1), ONE, 1, 1),
        draft(asked(0.0, 5, 0.0, 1.0, 5, 0), EIGHT, 0, 1),
        draft(asked(-0.0, 5, 0.5, 0.1, 1, 0), FOUR, 7, 5),
        // disperses, in eight budgets and at once
        draft(asked(20.0, 5, 4.0, 0.25, 1, 0), EIGHT, 17, 0),
        draft(asked(20.0, 5, 4.0, 0.25, 1, 0), EIGHT, 17, 31),
        draft(asked(20.0, 5, 4.0, 0.25, 1, 0), ONE, LAST, 0),
        // neighbouring amplitudes: timeout, collapse
        draft(asked(bits(0x4041C6FE5EF70CA2), 5, 4.0, 1.0, 5, 1), TWO, LAST, u32::MAX),
        draft(asked(bits(0x4041C6FE5EF70CA3), 5, 4.0, 1.0, 5, 1), TWO, LAST, u32::MAX),
        draft(asked(bits(0x40398CB0A7F663FC), 7, 4.0, 1.0, 7, 1), TWO, LAST, u32::MAX),
        draft(asked(bits(0x40398CB0A7F663FD), 7, 4.0, 1.0, 7, 1), TWO, LAST, u32::MAX),
        draft(asked(bits(0x40398CB0A7F663FD), 7, 4.0, 0.5, 0, 0), EIGHT, 97, 61),
        // collapse: max time that time, the float below it, 0.47, which the step before passes
        draft(asked(40.0, 5, bits(0x3FE0266666666665), 1.0, 2, 0), FOUR, 9, 6),
        draft(asked(40.0, 5, bits(0x3FE0266666666664), 1.0, 2, 0), FOUR, 9, 6),
        draft(asked(40.0, 5, 0.47, 1.0, 2, 0), FOUR, 9, 6),
        // collapse at once: no budget is too large
        draft(asked(60.0, 5, 4.0, 1.0, 0, 0), FOUR, 0, u32::MAX),
        draft(asked(100.0, 6, 4.0, 1.0, 0, 1), FOUR, u32::MAX, 0),
        // broken: an interval NaN that is not skipped; no budget is too large then
        draft(asked(10.0, 5, 4.0, NAN, 0, 0), FOUR, 0, 1),
        draft(asked(10.0, 7, 4.0, NAN, 2, 0), FOUR, LAST, u32::MAX),
        draft(asked(10.0, 6, 4.0, NAN, 2, 0), FOUR, u32::MAX, 2),
        draft(asked(10.0, 5, 4.0, NAN, 5, 1), FOUR, 40, 30),
        // 14: too large at once; after a step; then what is left
        draft(asked(20.0, 5, 1.0, 1.0, 0, 1), FOUR, LAST + 1, 5),
        draft(asked(20.0, 5, 1.0, 1.0, 0, 1), FOUR, 5, LAST),
        draft(asked(20.0, 5, 1.0, 1.0, 0, 1), FOUR, 1, LAST - 1),
        draft(asked(20.0, 5, 1.0, 0.5, 0, 0), FOUR, u32::MAX, 20),
        draft(asked(20.0, 7, 0.1, 0.05, 0, 0), EIGHT, LAST, 4),
        draft(asked(20.0, 7, 0.1, 0.05, 0, 0), EIGHT, 4, LAST),
        draft(asked(10.0, 5, INFINITY, INFINITY, 2, 0), FOUR, LAST + 1, 30),
        draft(asked(10.0, 6, NAN, 0.5, 1, 0), FOUR, 30, LAST),
        // max time: -infinity, the first step's time, the float below it
        draft(asked(10.0, 5, -INFINITY, 0.03125, 0, 0), FOUR, 1, 1),
        draft(asked(5.0, 5, 0.0296875, 1.0, 5, 1), FOUR, 1, 1),
        draft(asked(5.0, 5, bits(0x3F9E666666666665), 1.0, 5, 1), FOUR, 1, 1),
        // a negative amplitude; a subnormal one; the largest interval
        draft(asked(-20.0, 5, 2.0, 0.3, 1, 0), FOUR, 25, 20),
        draft(asked(bits(0x00001268D0D0D0D0), 6, 1.0, 0.3, 2, 0), FOUR, 9, 20),
        draft(asked(10.0, 5, 4.0, f64::MAX, 3, 0), FOUR, 3, 4),
        // every dx level of level 7, a frame or two each
        draft(asked(10.0, 7, 0.02, 1.0, 7, 0), FOUR, 1, 0),
        draft(asked(10.0, 7, 0.02, 0.01, 6, 0), FOUR, 1, 2),
        draft(asked(10.0, 7, 0.02, 0.01, 5, 0), FOUR, 2, 1),
        draft(asked(10.0, 7, 0.05, 0.03, 4, 0), FOUR, 2, 1),
        draft(asked(10.0, 7, 0.05, 0.02, 3, 0), FOUR, 4, 0),
        // the interval is the spacing; twice the base step; a late collapse; slow steps near a black hole
        draft(asked(30.0, 5, 0.3, 0.03125, 1, 0), FOUR, 3, 4),
        draft(asked(30.0, 5, 1.0, 0.059375, 0, 0), FOUR, 15, 18),
        draft(asked(30.0, 6, 6.0, 1.0, 1, 0), EIGHT, 60, 35),
        draft(asked(50.0, 6, 0.5, 0.05, 0, 0), FOUR, 70, 90),
        // an 08 that fills frame memory: once (seven frames of 1,163), twice (27 of 299)
        draft(asked(20.0, 7, 0.8, 0.1, 7, 0), ONE, LAST, 0),
        draft(asked(20.0, 5, 1.7, bits(0x3F9F07C1F07C1F08), 5, 0), ONE, LAST, 0),
        // a budget that is used up where frame memory is full (409 frames of 20) and a frame step comes; a short one
        draft(asked(20.0, 7, 4.0, bits(0x3F7FC07F01FC07F0), 0, 0), TWO, 819, 2),
        draft(asked(20.0, 7, 0.04, bits(0x3F7FC07F01FC07F0), 1, 0), TWO, 3, 20),
        // 14 after frames
        draft(asked(20.0, 6, 4.0, 0.04, 2, 0), TWO, 50, LAST),
    ]
}

const DRAWN: u64 = 48;

/// Settings by the generator: levels 5 to 7, amplitudes 0 to 60, max time 0 to 2, 1 to 16 times the least interval,
/// settings in a drawn order and budgets below 24 and 16.
fn drawn(k: u64) -> Draft {
    let a = mixed(41, k);
    let b = after(a);
    let c = after(b);
    let d = draw(after(c));
    let level = 5 + d % 3;
    let interval = least_interval(level as u32) * (1.0 + 7.5 * (1.0 + unit(c)));
    let skip = d / 64 % 4 == 0;
    let asked = asked(30.0 * (1.0 + unit(a)), level as u8, 1.0 + unit(b), interval, (d / 8 % 3) as u8, skip as u8);
    let commands = SEQUENCES[(d / 256 % 15) as usize];
    draft(asked, commands, (d / 4096 % 24) as u32, (d / 131072 % 16) as u32)
}

/// NaNs with a payload, quiet and signalling, of either sign, each as amplitude, as max time and as interval; commands.
const PAYLOADS: [([u64; 3], u64); 4] = [
    ([0x7FF9123456789ABC, 0xFFFB2D3E4F506172, 0x7FF3C1D2E3F40516], 0x6543217889000000),
    ([0xFFFB2D3E4F506172, 0x7FF3C1D2E3F40516, 0xFFF4A5B6C7D8E9FA], 0x4261537889000000),
    ([0x7FF3C1D2E3F40516, 0xFFF4A5B6C7D8E9FA, 0x7FF9123456789ABC], 0x3516247889000000),
    ([0xFFF4A5B6C7D8E9FA, 0x7FF9123456789ABC, 0xFFFB2D3E4F506172], 0x1234567889000000),
];

fn payloads(([amplitude, max_time, interval], commands): ([u64; 3], u64)) -> Draft {
    draft(Asked { amplitude, level: 5, max_time, interval, dx_level: 0, skip: 0 }, commands, 3, 45)
}
