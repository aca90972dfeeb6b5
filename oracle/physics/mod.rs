//! Cases of the crate physics. crates/physics_cases prints the same lines.
mod diagnostics;
mod forged;
mod refusals;
mod runs;
pub mod states;

pub fn print() {
    runs::print();
    forged::print();
    diagnostics::print();
    refusals::print();
}
