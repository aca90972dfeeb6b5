//! Times runs of an earlier landing's library, of the same once more, and of this one's, interleaved. bench/landings builds the three.
mod samples;

use samples::{median, now};
use std::ffi::{c_char, c_int, c_void, CString};
use std::hint::black_box;

const AMPLITUDE: f64 = 10.0;
/// Samples of each; an odd number, so that the median is one of them.
const SAMPLES: usize = 41;
/// Steps times points of a sample, about; the steps of a run at the most.
const POINTS: usize = 1_000_000;
const STEPS: usize = 100;
/// At least as many as any landing's record has.
const RECORD: usize = 32;

extern "C" {
    fn dlopen(path: *const c_char, flags: c_int) -> *mut c_void;
    fn dlsym(library: *mut c_void, name: *const c_char) -> *mut c_void;
}

type Begin = unsafe extern "C" fn(*mut f64, usize, *mut f64, usize, *mut f64, usize, *mut f64, usize) -> u32;
type Advance = unsafe extern "C" fn(*mut f64, usize, *mut f64, usize, *mut f64, usize, *mut f64, usize, u32) -> u32;
type Size = unsafe extern "C" fn(u32) -> usize;

struct Functions {
    begin: Begin,
    advance: Advance,
    state_size: Size,
    work_size: Size,
}

impl Functions {
    fn of(path: &str) -> Functions {
        const NOW: c_int = 2;
        let library = unsafe { dlopen(CString::new(path).unwrap().as_ptr(), NOW) };
        assert!(!library.is_null(), "{path} can't be loaded");
        let named = |name: &str| {
            let found = unsafe { dlsym(library, CString::new(name).unwrap().as_ptr()) };
            assert!(!found.is_null(), "{path} has no {name}");
            found
        };
        unsafe {
            Functions {
                begin: std::mem::transmute::<*mut c_void, Begin>(named("collapse_begin")),
                advance: std::mem::transmute::<*mut c_void, Advance>(named("collapse_advance")),
                state_size: std::mem::transmute::<*mut c_void, Size>(named("collapse_state_size")),
                work_size: std::mem::transmute::<*mut c_void, Size>(named("collapse_work_size")),
            }
        }
    }
}

/// A run's memories, and what begin left in them.
struct Run<'a> {
    functions: &'a Functions,
    begun: Vec<f64>,
    initial: Vec<f64>,
    record: Vec<f64>,
    state: Vec<f64>,
    work: Vec<f64>,
}

impl<'a> Run<'a> {
    /// No frames, no max time.
    fn begin(functions: &'a Functions, level: u32) -> Run<'a> {
        let mut begun = vec![0.0; RECORD];
        begun[..6].copy_from_slice(&[AMPLITUDE, level as f64, f64::INFINITY, 1.0, 0.0, 1.0]);
        let mut initial = vec![0.0; unsafe { (functions.state_size)(level) }];
        let mut work = vec![0.0; unsafe { (functions.work_size)(level) }];
        let (r, s, w) = (begun.as_mut_ptr(), initial.as_mut_ptr(), work.as_mut_ptr());
        let answer = unsafe { (functions.begin)(r, RECORD, s, initial.len(), w, work.len(), [].as_mut_ptr(), 0) };
        assert!(answer == 0, "refused {answer}");
        Run { functions, record: begun.clone(), state: initial.clone(), begun, initial, work }
    }

    /// So many steps from the initial state; a digest of the state's bits.
    fn steps(&mut self, steps: usize) -> u64 {
        self.record.copy_from_slice(&self.begun);
        self.state.copy_from_slice(&self.initial);
        let (r, s, w) = (self.record.as_mut_ptr(), self.state.as_mut_ptr(), self.work.as_mut_ptr());
        let (state, work) = (self.state.len(), self.work.len());
        unsafe { (self.functions.advance)(r, RECORD, s, state, w, work, [].as_mut_ptr(), 0, steps as u32) };
        black_box(&self.state).iter().step_by(self.state.len() / 64).fold(0, |d: u64, x| d.rotate_left(7) ^ x.to_bits())
    }
}

fn main() {
    let paths: Vec<String> = std::env::args().skip(1).collect();
    let libraries: Vec<Functions> = paths.iter().map(|path| Functions::of(path)).collect();
    println!("ns of processor time per point and step of runs of at most {STEPS} steps, median of {SAMPLES} interleaved samples;");
    println!("in brackets over the first");
    println!("level  before    before again    now");
    let ratios: Vec<f64> = (5..=16).map(|l| level(l, &libraries)).collect();
    let most = ratios.iter().copied().fold(f64::NEG_INFINITY, f64::max);
    let mean = (ratios.iter().map(|r| r.ln()).sum::<f64>() / ratios.len() as f64).exp();
    println!("now over before: {mean:.3} in the mean, {most:.3} at the most");
}

/// One line; this library's time over the earlier one's.
fn level(level: u32, libraries: &[Functions]) -> f64 {
    let n = (1usize << level) + 1;
    let steps = (POINTS / n).clamp(1, STEPS);
    let times = POINTS.div_ceil(n * steps);
    let mut runs: Vec<Run> = libraries.iter().map(|functions| Run::begin(functions, level)).collect();
    let mut samples = vec![Vec::new(); runs.len()];
    for turn in 0..SAMPLES {
        let mut answers = vec![0; runs.len()];
        // another is the first in each turn
        for i in (0..runs.len()).map(|i| (i + turn) % libraries.len()) {
            let start = now();
            (0..times).for_each(|_| answers[i] = runs[i].steps(steps));
            samples[i].push((now() - start) / (times * steps * n) as f64);
        }
        assert!(answers.iter().all(|&a| a == answers[0]), "the runs differ");
    }
    let ns: Vec<f64> = samples.into_iter().map(median).collect();
    println!("{level:5}  {:6.2}    {:6.2} ({:.3})    {:6.2} ({:.3})", ns[0], ns[1], ns[1] / ns[0], ns[2], ns[2] / ns[0]);
    ns[2] / ns[0]
}
