//! What the programs `collapse` and `spell` answer to random orders, beside what is expected of them.
use super::child::run;
use super::program::{lines, MOST_BYTES};
use super::spelling::spelling;
use crate::dice::Dice;
use std::collections::BTreeMap;

/// Runs both programs on `count` orders; ends the process with 1 at the first difference.
pub fn compare(collapse: &str, spell: &str, count: u64, seed: u64) {
    println!("seed {seed}, {count} orders");
    let mut seen: BTreeMap<String, u64> = BTreeMap::new();
    for k in 0..count {
        let order = Dice::new(seed, k).order();
        let answers = carried_out(collapse, &order).and_then(|lines| Ok((lines, spelled(spell, &order)?)));
        let (lines, spelled) = answers.unwrap_or_else(|why| fail(seed, k, &order, &why));
        lines.lines().for_each(|line| *seen.entry(kind("lines", line)).or_default() += 1);
        *seen.entry(kind("spellings", &spelled)).or_default() += 1;
        if (k + 1) % 500 == 0 {
            println!("{} orders", k + 1);
        }
    }
    seen.iter().for_each(|(kind, n)| println!("{n} {kind}"));
    println!("{count} orders compared, no difference");
}

fn fail(seed: u64, k: u64, order: &[u8], why: &str) -> ! {
    println!("seed {seed}, order {k}, {} bytes: {why}", order.len());
    println!("{}", hexadecimal(order));
    std::process::exit(1);
}

fn hexadecimal(bytes: &[u8]) -> String {
    bytes.iter().map(|b| format!("{b:02X}")).collect()
}

/// A line's first word, of a refusal its number too.
fn kind(of: &str, line: &str) -> String {
    let words = if line.starts_with("refused") { 2 } else { 1 };
    format!("{of}: {}", line.split(' ').take(words).collect::<Vec<_>>().join(" "))
}

/// The lines of `collapse`.
fn carried_out(collapse: &str, order: &[u8]) -> Result<String, String> {
    let expected = lines(order);
    let said = run(collapse, order)?;
    match difference(expected.as_bytes(), &said.out) {
        None if said.err.is_empty() => Ok(expected),
        None => Err(format!("standard error has {}", said.err)),
        Some(why) => Err(why),
    }
}

/// The first line that differs.
fn difference(expected: &[u8], printed: &[u8]) -> Option<String> {
    if expected == printed {
        return None;
    }
    let (mine, theirs): (Vec<_>, Vec<_>) = (expected.split(|&b| b == 10).collect(), printed.split(|&b| b == 10).collect());
    let at = (0..).find(|&i| mine.get(i) != theirs.get(i)).unwrap();
    let text = |line: Option<&&[u8]>| line.map_or("the end".to_string(), |l| String::from_utf8_lossy(l).chars().take(400).collect());
    Some(format!("line {}\nexpected {}\nprinted  {}", at + 1, text(mine.get(at)), text(theirs.get(at))))
}

/// What `spell` answers: the spelling, or nothing and on standard error a line with the refusal and what it means.
fn spelled(spell: &str, order: &[u8]) -> Result<String, String> {
    let expected = match spelling(order) {
        _ if order.len() > MOST_BYTES => Err("refused 8".to_string()),
        read => read.map_err(|fault| fault.to_string()),
    };
    let said = run(spell, order)?;
    match expected {
        Ok(bytes) if said.out == bytes && said.err.is_empty() => Ok("written".to_string()),
        Err(refusal) if said.out.is_empty() && is_told(&refusal, &said.err) => Ok(refusal),
        _ => {
            let expected = expected.map_or_else(|refusal| refusal, |bytes| hexadecimal(&bytes));
            Err(format!("{spell}\nexpected {expected}\nwritten  {}\nstandard error {}", hexadecimal(&said.out), said.err))
        }
    }
}

fn is_told(refusal: &str, err: &str) -> bool {
    let words = err.strip_prefix(&format!("spell: {refusal}: "));
    words.is_some_and(|words| words.len() > 1 && words.find('\n') == Some(words.len() - 1))
}
