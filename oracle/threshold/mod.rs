//! Cases of the crate threshold. crates/threshold_cases prints the same lines.
mod drawn;
mod search;
mod table;

use crate::digest::mixed;
use search::{Asked, Bracket, Why};

pub fn print() {
    for (k, row) in table::rows().chain(drawn::rows()).enumerate() {
        let digest = row.iter().fold(1, |d, &word| mixed(mixed(d, word >> 32), word & 0xFFFFFFFF));
        println!("case {k} asked {digest} {} beyond 0", answer(&table::asked(&row)));
    }
}

/// A refusal's number, or both ends, the halvings made and why the search stopped.
fn answer(asked: &Asked) -> String {
    match asked.search() {
        Err(number) => format!("refused {number}"),
        Ok(Bracket { low, high, made, why }) => format!("low {low} high {high} made {made} why {}", word(&why)),
    }
}

fn word(why: &Why) -> String {
    match why {
        Why::Used => "used".to_string(),
        Why::Adjacent => "adjacent".to_string(),
        Why::Neither => "neither".to_string(),
        Why::Refused(number) => format!("refused {number}"),
    }
}
