//! exp, tan and the powers: our reading of 01, mapped over vectors by the published `FieldVector`.
use crate::arguments::{list, Range, SPECIAL};
use crate::digest::{bits_of, digest, of_bits};
use crate::domain::field_vector::FieldVector;

type Map = fn(&FieldVector) -> FieldVector;

pub fn print() {
    let functions: [(&str, Map, u64); 5] = [
        ("exp", |v| v.exp(), 16),
        ("tan", |v| v.tan(), 4),
        ("square", |v| v.powi(2), 4),
        ("fourth", |v| v.powi(4), 4),
        ("reciprocal", |v| v.powi(-1), 4),
    ];
    for (name, map, seeds) in functions {
        specials(name, map);
        chunks(&format!("{name} patterns"), map, Range::Patterns, seeds);
    }
    chunks("exp whole range", |v| v.exp(), Range::Exp, 16);
    chunks("exp near zero", |v| v.exp(), Range::NearZero, 16);
    chunks("tan quarter", |v| v.tan(), Range::Quarter, 4);
    chunks("tan beyond", |v| v.tan(), Range::Ten, 4);
}

fn specials(name: &str, map: Map) {
    for b in SPECIAL {
        let answer = map(&FieldVector::new(vec![of_bits(b)]));
        println!("{name} special {b:016x} {:016x}", bits_of(answer[0]));
    }
}

fn chunks(name: &str, map: Map, range: Range, seeds: u64) {
    for seed in 1..=seeds {
        let values = FieldVector::new(list(range, seed, 256));
        println!("{name} {seed} {}", digest(map(&values).iter()));
    }
}
