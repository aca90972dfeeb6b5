//! Cases of the crate run. crates/run_cases prints the same lines.
pub mod begin;
mod calls;
mod forged;
pub mod lines;
mod lists;
mod memories;
pub mod plain;
pub mod settings;
pub mod tally;
mod whole;

pub fn print() {
    let cases = settings::cases();
    for (k, case) in cases.iter().enumerate() {
        lists::print(k, case);
    }
    whole::print(&cases);
    calls::print(&cases);
    begin::print();
    forged::print();
}
