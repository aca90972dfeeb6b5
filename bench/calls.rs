//! Runs of the static library capi in calls, with memories of their own.
use crate::capi;

pub struct Library {
    begun: Vec<f64>,
    initial: Vec<f64>,
    record: Vec<f64>,
    state: Vec<f64>,
    work: Vec<f64>,
}

impl Library {
    /// No frames, no max time.
    pub fn begin(level: u32, amplitude: f64) -> Library {
        let mut begun = vec![0.0; capi::RECORD];
        begun[..6].copy_from_slice(&[amplitude, level as f64, f64::INFINITY, 1.0, 0.0, 1.0]);
        let mut initial = vec![0.0; capi::state_size(level)];
        let mut work = vec![0.0; capi::work_size(level)];
        let answer = capi::begin(&mut begun, &mut initial, &mut work, &mut []);
        assert!(answer == capi::BEGUN, "refused {answer}");
        Library { record: begun.clone(), state: initial.clone(), begun, initial, work }
    }

    /// The field after so many steps from the initial state, made in calls with this budget.
    pub fn run(&mut self, steps: usize, budget: usize) -> &[f64] {
        self.record.copy_from_slice(&self.begun);
        self.state.copy_from_slice(&self.initial);
        let mut left = steps;
        while left > 0 {
            let now = budget.min(left);
            let answer = capi::advance(&mut self.record, &mut self.state, &mut self.work, &mut [], now as u32);
            assert!(answer == capi::SPENT, "answered {answer}");
            left -= now;
        }
        &self.state[..self.initial.len() / 8]
    }
}
