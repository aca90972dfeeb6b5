//! The parts of a line.
use super::plain::Outcome;
use super::tally::Reply;
use crate::digest::bits_of;

pub fn name(o: &Outcome) -> &'static str {
    match o {
        Outcome::Collapse(_) => "collapse",
        Outcome::Broken => "broken",
        Outcome::Timeout => "timeout",
        Outcome::Spent => "spent",
    }
}

pub fn mass(o: &Outcome) -> String {
    match o {
        Outcome::Collapse(mass) => format!("{:016x}", bits_of(*mass)),
        _ => "none".to_string(),
    }
}

/// A refusal's number; full with attempts and frames; or the outcome with mass and frames.
pub fn reply(r: &Reply) -> String {
    match r {
        Reply::Refused(number) => format!("refused {number}"),
        Reply::Full(made, frames) => format!("full {made} {frames}"),
        Reply::Ran(o, frames) => format!("{} {} {frames}", name(o), mass(o)),
    }
}
