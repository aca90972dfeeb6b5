//! Random orders, good and damaged.
use super::reader::read;
use crate::dice::Dice;
use crate::run::settings::least_interval;

impl Dice {
    /// An order whose run is short.
    pub fn order(&mut self) -> Vec<u8> {
        loop {
            let order = match self.below(20) {
                0 => self.noise(),
                1 => self.shuffled(),
                2 => self.long(),
                3..=9 => self.good().concat(),
                _ => self.damaged(),
            };
            if is_short(&order) {
                return order;
            }
        }
    }

    /// The commands of a good order.
    fn good(&mut self) -> Vec<Vec<u8>> {
        let mut commands = self.settings();
        commands.push(vec![7]);
        for _ in 0..self.choose(&[0, 1, 1, 2, 3, 5, 9]) {
            commands.push(self.advance());
        }
        commands.push(vec![9]);
        commands
    }

    /// The six settings in any sequence.
    fn settings(&mut self) -> Vec<Vec<u8>> {
        let level = self.choose(&[5u8, 5, 5, 6, 6, 7, 7, 7, 7, self.0 as u8 % 19]);
        let amplitude = match self.below(8) {
            0 => self.pattern(),
            1 => self.choose(&[0.0, -0.0, 60.0, -20.0, f64::from_bits(0x4041C6FE5EF70CA2), f64::from_bits(0x40398CB0A7F663FD)]),
            _ => 60.0 * self.unit(),
        };
        let max_time = match self.below(8) {
            0 => self.pattern(),
            1 => 4.0 * self.unit(),
            _ => self.unit(),
        };
        let least = least_interval((level as u32).clamp(5, 16));
        let interval = match self.below(8) {
            0 => self.pattern(),
            1 => f64::from_bits(least.to_bits() - self.below(2) as u64),
            2 => 1.0,
            _ => least * (1.0 + 30.0 * self.unit()),
        };
        let dx_level = self.choose(&[0, 0, 1, 1, 2, 3, level.min(5), level, level + 1, self.0 as u8]);
        let skip = self.choose(&[0, 0, 1]);
        let mut settings = vec![
            float(1, amplitude), vec![2, level], float(3, max_time), float(4, interval), vec![5, dx_level], vec![6, skip],
        ];
        for i in (1..6).rev() {
            settings.swap(i, self.below(i + 1));
        }
        settings
    }

    /// Any pattern, often a NaN with any sign and payload, an infinity, a zero or the largest.
    fn pattern(&mut self) -> f64 {
        let edges = [0x7FF8000000000000, 0xFFF0000000000001, 0x7FF0000000000000, 0xFFF0000000000000, 1, 1 << 63, 0x7FEFFFFFFFFFFFFF];
        f64::from_bits(match self.below(4) {
            0 => self.next(),
            1 => self.next() | 0x7FF0000000000000,
            _ => self.choose(&edges),
        })
    }

    fn advance(&mut self) -> Vec<u8> {
        let budget = match self.below(12) {
            0 => 0,
            1 => 2_147_483_647 - self.below(40) as u32,
            2 => 2_147_483_648,
            3 => self.next() as u32,
            4 => u32::MAX,
            5 | 6 => self.below(5) as u32,
            _ => self.below(150) as u32,
        };
        [vec![8], budget.to_le_bytes().to_vec()].concat()
    }

    /// A good order with one to three faults.
    fn damaged(&mut self) -> Vec<u8> {
        let mut commands = self.good();
        let (i, k) = (self.below(commands.len()), self.below(commands.len()));
        match self.below(8) {
            0 => drop(commands.remove(i)),
            1 => commands.insert(i, commands[k].clone()),
            2 => commands.swap(i, k),
            3 => commands.insert(i, vec![6, self.choose(&[2, 3, 128, 255])]),
            _ => {}
        }
        let mut bytes = commands.concat();
        for _ in 0..self.choose(&[0, 1, 1, 2]) {
            let at = self.below(bytes.len() + 1);
            let byte = self.choose(&[0, 1, 2, 6, 7, 8, 9, 10, 255, self.0 as u8]);
            match self.below(4) {
                0 => bytes.truncate(at),
                1 => bytes.insert(at, byte),
                2 if at < bytes.len() => drop(bytes.remove(at)),
                _ if at < bytes.len() => bytes[at] = byte,
                _ => bytes.push(byte),
            }
        }
        bytes
    }

    /// Commands in any order.
    fn shuffled(&mut self) -> Vec<u8> {
        let commands = self.good();
        (0..self.below(14)).flat_map(|_| commands[self.below(commands.len())].clone()).collect()
    }

    /// Bytes, most of them commands.
    fn noise(&mut self) -> Vec<u8> {
        (0..self.below(60)).map(|_| if self.below(4) == 0 { self.next() as u8 } else { self.below(11) as u8 }).collect()
    }

    /// Near 4,096 bytes.
    fn long(&mut self) -> Vec<u8> {
        let mut commands = self.settings();
        commands.push(vec![7]);
        for _ in 0..809 + self.below(5) {
            let budget = self.choose(&[0u32, 0, 0, 1, 2, 2_147_483_648]);
            commands.push([vec![8], budget.to_le_bytes().to_vec()].concat());
        }
        commands.push(vec![9]);
        let mut bytes = commands.concat();
        match self.below(4) {
            0 => bytes.resize(4094 + self.below(5), self.0 as u8),
            1 => bytes.push(9),
            _ => {}
        }
        bytes
    }
}

fn float(command: u8, x: f64) -> Vec<u8> {
    [vec![command], x.to_bits().to_le_bytes().to_vec()].concat()
}

/// Whether the order's run ends soon by its max time or by its budgets. A budget above 2,147,483,647 makes no step.
fn is_short(bytes: &[u8]) -> bool {
    let Ok(order) = read(bytes) else { return true };
    let budgets: u64 = order.budgets.iter().filter(|&&b| b <= 2_147_483_647).map(|&b| b as u64).sum();
    order.settings().max_time <= 5.0 || budgets <= 3000
}
