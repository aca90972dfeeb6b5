//! The Rust side of every comparison: `oracle NAME` prints the cases of one layer and their answers. `oracle order`
//! and `oracle spell` answer one order, and `oracle random` compares two programs with the answers to random orders.
mod arguments;
mod dice;
mod digest;
mod domain;
mod mantissas;
mod orders;
mod ours;
mod physics;
mod run;
mod threshold;
mod use_cases;
mod vectors;

fn main() {
    let name = std::env::args().nth(1).unwrap_or_default();
    match name.as_str() {
        "vectors" => vectors::print(),
        "physics" => physics::print(),
        "run" => run::print(),
        "threshold" => threshold::print(),
        "orders" => orders::print(),
        "order" => or_say_why(orders::answer(std::env::args().nth(2))),
        "spell" => or_say_why(orders::spell(std::env::args().nth(2))),
        "random" => random(),
        _ => usage(),
    }
}

fn or_say_why(written: std::io::Result<()>) {
    if let Err(why) = written {
        eprintln!("oracle: {why}");
        std::process::exit(1);
    }
}

fn random() {
    let program = |i| std::env::args().nth(i).unwrap_or_else(|| usage());
    orders::compare(&program(2), &program(3), number(4), number(5));
}

fn number(i: usize) -> u64 {
    std::env::args().nth(i).and_then(|text| text.parse().ok()).unwrap_or_else(|| usage())
}

fn usage() -> ! {
    eprintln!("usage: oracle vectors | physics | run | threshold | orders | order [FILE] | spell [FILE] | random COLLAPSE SPELL COUNT SEED");
    std::process::exit(2);
}
