//! A draft: what an order of the table is written from. crates/order_cases/src/draft.rt does the same.

/// The operands of the six settings, floats by their bits.
#[derive(Clone, Copy)]
pub struct Asked {
    pub amplitude: u64,
    pub level: u8,
    pub max_time: u64,
    pub interval: u64,
    pub dx_level: u8,
    pub skip: u8,
}

#[derive(Clone, Copy)]
pub struct Draft {
    pub asked: Asked,
    /// The commands as hexadecimal digits, the first the highest of 16. 0: nothing. 1 to 9: that command. A, B, C: the
    /// bytes 00, 0A, FF. D: the switch 2. E: advances at every place before `fill`.
    pub commands: u64,
    /// The budget of an advance that stands at an even position, and at an odd one.
    pub even: u32,
    pub odd: u32,
    /// Before the digit at this place `code` stands too; code F leaves that digit out.
    pub place: u32,
    pub code: u64,
    pub fill: usize,
    /// The bytes of the order: cut there, or zeros after the commands. WHOLE: as many as the commands have.
    pub length: usize,
}

pub const WHOLE: usize = 9999;
/// For the code F.
pub const OUT: u64 = 15;

impl Draft {
    pub fn bytes(&self) -> Vec<u8> {
        let mut bytes = Vec::new();
        for place in 0..16 {
            let digit = self.commands >> (60 - 4 * place) & 15;
            if place != self.place {
                self.put(digit, &mut bytes);
            } else if self.code != OUT {
                self.put(self.code, &mut bytes);
                self.put(digit, &mut bytes);
            }
        }
        if self.length != WHOLE {
            bytes.resize(self.length, 0);
        }
        bytes
    }

    fn put(&self, digit: u64, bytes: &mut Vec<u8>) {
        let a = &self.asked;
        match digit {
            1 => float(1, a.amplitude, bytes),
            2 => bytes.extend([2, a.level]),
            3 => float(3, a.max_time, bytes),
            4 => float(4, a.interval, bytes),
            5 => bytes.extend([5, a.dx_level]),
            6 => bytes.extend([6, a.skip]),
            7 => bytes.push(7),
            8 => self.advance(bytes),
            9 => bytes.push(9),
            10 => bytes.push(0x00),
            11 => bytes.push(0x0A),
            12 => bytes.push(0xFF),
            13 => bytes.extend([6, 2]),
            14 => {
                while bytes.len() < self.fill {
                    self.advance(bytes);
                }
            }
            _ => {}
        }
    }

    fn advance(&self, bytes: &mut Vec<u8>) {
        let budget = if bytes.len() % 2 == 0 { self.even } else { self.odd };
        bytes.push(8);
        bytes.extend(budget.to_le_bytes());
    }
}

fn float(command: u8, bits: u64, bytes: &mut Vec<u8>) {
    bytes.push(command);
    bytes.extend(bits.to_le_bytes());
}
