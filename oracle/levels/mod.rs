//! Runs in calls at every level: the library capi beside 01's tally.
mod counts;
mod lists;
mod session;
mod settings;

use counts::Counts;

pub fn compare(seed: u64) {
    println!("seed {seed}");
    let mut all = Counts::default();
    for level in 5..=16 {
        let mut counts = Counts::default();
        for (k, case) in settings::cases(seed, level).iter().enumerate() {
            counts.add(&lists::run(seed, k as u64, case));
        }
        println!("level {level}: {counts}");
        all.add(&counts);
    }
    println!("levels 5 to 16: {all}, no difference");
}
