//! 01's order reader, from "Orders (added)" and "From the input".
use crate::digest::of_bits;
use crate::run::settings::Settings;
use std::fmt;

pub struct Order {
    /// Of 01 to 06, floats by their bits.
    pub operands: [u64; 6],
    pub budgets: Vec<u32>,
}

impl Order {
    pub fn settings(&self) -> Settings {
        let [amplitude, level, max_time, interval, dx_level, skip] = self.operands;
        Settings::new(of_bits(amplitude), level as u32, of_bits(max_time), of_bits(interval), dx_level as u32, skip == 1)
    }
}

/// Why an order is refused: 1 to 4, and the position.
pub struct Fault {
    pub number: u32,
    pub position: usize,
}

impl fmt::Display for Fault {
    fn fmt(&self, to: &mut fmt::Formatter) -> fmt::Result {
        write!(to, "refused {} {}", self.number, self.position)
    }
}

/// How many bytes the operand of a command has; none for a byte that is no command.
pub fn operand_size(command: u8) -> Option<usize> {
    match command {
        1 | 3 | 4 => Some(8),
        2 | 5 | 6 => Some(1),
        7 | 9 => Some(0),
        8 => Some(4),
        _ => None,
    }
}

/// What was read before a command: each setting's operand, whether 07 came, the budgets.
#[derive(Default)]
struct Seen {
    settings: [Option<u64>; 6],
    begun: bool,
    budgets: Vec<u32>,
}

/// The whole order, or the first command at fault.
pub fn read(bytes: &[u8]) -> Result<Order, Fault> {
    let mut seen = Seen::default();
    let mut at = 0;
    while at < bytes.len() {
        let fault = |number| Err(Fault { number, position: at });
        let command = bytes[at];
        let Some(size) = operand_size(command) else { return fault(2) };
        let Some(operand) = bytes.get(at + 1..at + 1 + size) else { return fault(1) };
        let operand = little(operand);
        if command == 6 && operand > 1 {
            return fault(2);
        }
        if seen.is_misplaced(command) {
            return fault(3);
        }
        if seen.is_early(command) {
            return fault(4);
        }
        at += 1 + size;
        if command == 9 {
            return if at < bytes.len() { Err(Fault { number: 3, position: at }) } else { Ok(seen.order()) };
        }
        seen.note(command, operand);
    }
    Err(Fault { number: 1, position: bytes.len() })
}

impl Seen {
    /// A setting repeated or after 07, a second 07, 08 before 07.
    fn is_misplaced(&self, command: u8) -> bool {
        match command {
            1..=6 => self.begun || self.settings[command as usize - 1].is_some(),
            7 => self.begun,
            8 => !self.begun,
            _ => false,
        }
    }

    /// 07 with a setting missing, 09 before 07.
    fn is_early(&self, command: u8) -> bool {
        match command {
            7 => self.settings.iter().any(Option::is_none),
            9 => !self.begun,
            _ => false,
        }
    }

    fn note(&mut self, command: u8, operand: u64) {
        match command {
            1..=6 => self.settings[command as usize - 1] = Some(operand),
            7 => self.begun = true,
            _ => self.budgets.push(operand as u32),
        }
    }

    fn order(self) -> Order {
        Order { operands: self.settings.map(|operand| operand.unwrap()), budgets: self.budgets }
    }
}

/// A little-endian number of at most 8 bytes.
fn little(bytes: &[u8]) -> u64 {
    bytes.iter().rev().fold(0, |n, &b| n * 256 + b as u64)
}
