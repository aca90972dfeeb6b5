//! The static library of crates/physics_c with memories of its own.

extern "C" {
    fn physics_begin(level: u32, amplitude: f64, state: *mut f64, state_length: usize, work: *mut f64, work_length: usize) -> u32;
    fn physics_step(level: u32, delta: f64, state: *mut f64, state_length: usize, work: *mut f64, work_length: usize) -> u32;
}

pub struct Memories {
    level: u32,
    pub state: Vec<f64>,
    work: Vec<f64>,
}

impl Memories {
    /// The initial state.
    pub fn begin(level: u32, amplitude: f64) -> Self {
        let n = (1 << level) + 1;
        let mut m = Self { level, state: vec![0.0; 8 * n], work: vec![0.0; 40 * n] };
        let (state, work) = (&mut m.state, &mut m.work);
        let answer = unsafe { physics_begin(level, amplitude, state.as_mut_ptr(), state.len(), work.as_mut_ptr(), work.len()) };
        assert!(answer == 0, "refused {answer}");
        m
    }

    /// The state delta after the one in state memory.
    pub fn step(&mut self, delta: f64) {
        let (state, work) = (&mut self.state, &mut self.work);
        let answer = unsafe { physics_step(self.level, delta, state.as_mut_ptr(), state.len(), work.as_mut_ptr(), work.len()) };
        assert!(answer == 0, "refused {answer}");
    }
}
