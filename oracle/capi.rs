//! The static library of crates/capi; include/collapse.h says what its functions take and answer.

extern "C" {
    fn collapse_state_size(level: u32) -> usize;
    fn collapse_work_size(level: u32) -> usize;
    fn collapse_frame_size(dx_level: u32) -> usize;
    fn collapse_begin(
        record: *mut f64, record_length: usize, state: *mut f64, state_length: usize, work: *mut f64, work_length: usize,
        frames: *mut f64, frames_length: usize,
    ) -> u32;
    fn collapse_advance(
        record: *mut f64, record_length: usize, state: *mut f64, state_length: usize, work: *mut f64, work_length: usize,
        frames: *mut f64, frames_length: usize, budget: u32,
    ) -> u32;
    fn collapse_search(
        record: *const f64, record_length: usize, unit: f64, low: u64, high: u64, halvings: u32, budget: u32, state: *mut f64,
        state_length: usize, work: *mut f64, work_length: usize, result: *mut f64, result_length: usize,
    ) -> u32;
}

/// The numbers of a record.
pub const RECORD: usize = 12;
/// The numbers of a search's result: low, high, halvings made, why.
pub const FOUND_SIZE: usize = 4;
pub const BEGUN: u32 = 0;
pub const FOUND: u32 = 0;
pub const FULL: u32 = 110;
pub const COLLAPSED: u32 = 111;
pub const BROKE: u32 = 112;
pub const TIMED_OUT: u32 = 113;
pub const SPENT: u32 = 114;

pub fn state_size(level: u32) -> usize {
    unsafe { collapse_state_size(level) }
}

pub fn work_size(level: u32) -> usize {
    unsafe { collapse_work_size(level) }
}

pub fn frame_size(dx_level: u32) -> usize {
    unsafe { collapse_frame_size(dx_level) }
}

pub fn begin(record: &mut [f64], state: &mut [f64], work: &mut [f64], frames: &mut [f64]) -> u32 {
    unsafe {
        collapse_begin(
            record.as_mut_ptr(), record.len(), state.as_mut_ptr(), state.len(), work.as_mut_ptr(), work.len(),
            frames.as_mut_ptr(), frames.len(),
        )
    }
}

pub fn advance(record: &mut [f64], state: &mut [f64], work: &mut [f64], frames: &mut [f64], budget: u32) -> u32 {
    unsafe {
        collapse_advance(
            record.as_mut_ptr(), record.len(), state.as_mut_ptr(), state.len(), work.as_mut_ptr(), work.len(),
            frames.as_mut_ptr(), frames.len(), budget,
        )
    }
}

/// What is asked of a search beside its settings.
pub struct Asked {
    pub unit: f64,
    pub low: u64,
    pub high: u64,
    pub halvings: u32,
    pub budget: u32,
}

pub fn search(record: &[f64], a: &Asked, state: &mut [f64], work: &mut [f64], found: &mut [f64]) -> u32 {
    unsafe {
        collapse_search(
            record.as_ptr(), record.len(), a.unit, a.low, a.high, a.halvings, a.budget, state.as_mut_ptr(), state.len(),
            work.as_mut_ptr(), work.len(), found.as_mut_ptr(), found.len(),
        )
    }
}
