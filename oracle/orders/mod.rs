//! Orders: what the program `collapse` prints for them, and their spelling. crates/order_cases prints the same lines for the
//! table.
mod child;
mod compare;
mod draft;
mod lent;
mod permutations;
mod program;
mod random;
mod reader;
mod spelling;
mod table;

pub use compare::compare;

use crate::digest::mixed;
use std::io::{stdin, stdout, Error, Read, Result, Write};

/// Each order of the table: its number, how many bytes it has and their digest; its spelling; then what the program prints.
pub fn print() {
    for (k, draft) in table::drafts().iter().enumerate() {
        let bytes = draft.bytes();
        println!("order {k} bytes {} {}\n{}", bytes.len(), digest(&bytes), lent::line(&bytes));
        print!("{}", program::lines(&bytes));
    }
    println!("{}", permutations::line());
}

fn digest(bytes: &[u8]) -> u64 {
    bytes.iter().fold(1, |d, &b| mixed(d, b as u64))
}

/// What the program prints for one order.
pub fn answer(file: Option<String>) -> Result<()> {
    stdout().write_all(program::lines(&input(file)?).as_bytes())
}

/// The spelling of one order, which must be a good one.
pub fn spell(file: Option<String>) -> Result<()> {
    let bytes = spelling::spelling(&input(file)?).map_err(|fault| Error::other(fault.to_string()))?;
    stdout().write_all(&bytes)
}

/// One order, from a file or from standard input; of a longer one 4,097 bytes.
fn input(file: Option<String>) -> Result<Vec<u8>> {
    let mut bytes = Vec::new();
    match file {
        Some(name) => std::fs::File::open(name)?.take(4097).read_to_end(&mut bytes)?,
        None => stdin().take(4097).read_to_end(&mut bytes)?,
    };
    Ok(bytes)
}
