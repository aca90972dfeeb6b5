//! The clock of the measurements, and their median.

extern "C" {
    fn clock_gettime(clock: i32, time: *mut [i64; 2]) -> i32;
}

/// Processor time of this thread on Linux, in ns: other work on the machine is not in it.
pub fn now() -> f64 {
    const THREAD: i32 = 3;
    let mut time = [0, 0];
    assert!(unsafe { clock_gettime(THREAD, &mut time) } == 0, "no clock");
    time[0] as f64 * 1e9 + time[1] as f64
}

/// Of an odd number of times the one in the middle.
pub fn median(mut times: Vec<f64>) -> f64 {
    times.sort_by(f64::total_cmp);
    times[times.len() / 2]
}
