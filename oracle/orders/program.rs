//! What the program prints for an order, from 01's "Orders (added)" over the plain run. Frame memory is not modelled:
//! after full the program calls again with the rest of the budget, so an 08 appends the plain run's frames.
use super::reader::{read, Order};
use crate::digest::bits_of;
use crate::run::begin::begin;
use crate::run::lines::name;
use crate::run::plain::{Machine, Outcome};
use std::fmt::Write;

pub const MOST_BYTES: usize = 4096;
const MOST_STEPS: u64 = 2_147_483_647;
/// State, work and frame memory: for level 7, and 8,192 numbers.
const LENT: (usize, usize, usize) = (8 * 129, 40 * 129, 8192);

pub fn lines(bytes: &[u8]) -> String {
    if bytes.len() > MOST_BYTES {
        return "refused 8\n".to_string();
    }
    match read(bytes) {
        Err(fault) => format!("{fault}\n"),
        Ok(order) => carried_out(&order),
    }
}

fn carried_out(order: &Order) -> String {
    let mut machine = match begin(&order.settings(), LENT) {
        Err(number) => return format!("refused {number}\n"),
        Ok(machine) => machine,
    };
    let mut text = String::new();
    frames(&mut text, &mut machine);
    for &budget in &order.budgets {
        if !machine.ended() && machine.steps as u64 + budget as u64 > MOST_STEPS {
            text.push_str("refused 14\n");
            continue;
        }
        for _ in 0..budget {
            if machine.ended() {
                break; // the attempts that are left do nothing
            }
            machine.attempt();
            frames(&mut text, &mut machine);
        }
        outcome(&mut text, &machine);
    }
    text
}

/// A line for each frame not yet printed.
fn frames(text: &mut String, machine: &mut Machine) {
    for frame in machine.frames.drain(..) {
        text.push_str("frame");
        frame.iter().for_each(|&x| write!(text, " {:016X}", bits_of(x)).unwrap());
        text.push('\n');
    }
}

fn outcome(text: &mut String, machine: &Machine) {
    let outcome = machine.outcome();
    let mass = match outcome {
        Outcome::Collapse(mass) => format!("{:016X}", bits_of(mass)),
        _ => "none".to_string(),
    };
    writeln!(text, "{} {} {:016X} {mass}", name(&outcome), machine.steps, bits_of(machine.state.time)).unwrap();
}
