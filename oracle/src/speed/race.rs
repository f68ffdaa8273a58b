//! Two programs over the same inputs, by turns, in slices of processor time.

use std::sync::OnceLock;

/// A run has so many slices of each side, each of about so many nanoseconds: what else the machine does then slows both alike.
const SLICES: usize = 100;
const SLICE: f64 = 1e6;
pub const RUNS: usize = 9;

/// Where it is set nothing is timed: our side alone goes over the inputs, so many times, and a profiler counts.
pub static ROUNDS: OnceLock<usize> = OnceLock::new();

#[repr(C)]
struct Time {
    seconds: i64,
    nanoseconds: i64,
}

extern "C" {
    fn clock_gettime(clock: i32, time: *mut Time) -> i32;
}

/// Nanoseconds of processor time of this thread.
pub fn thread_time() -> f64 {
    const THREAD: i32 = 3;
    let mut time = Time { seconds: 0, nanoseconds: 0 };
    let status = unsafe { clock_gettime(THREAD, &mut time) };
    assert!(status == 0);
    time.seconds as f64 * 1e9 + time.nanoseconds as f64
}

/// Work on the input of a number, and what is laid ready for it before the clock starts.
pub struct Side<'a> {
    pub ready: &'a mut dyn FnMut(usize),
    pub work: &'a mut dyn FnMut(usize),
}

fn slice(side: &mut Side, inputs: impl Iterator<Item = usize> + Clone) -> f64 {
    inputs.clone().for_each(|i| (side.ready)(i));
    let start = thread_time();
    for i in inputs {
        (side.work)(i);
    }
    thread_time() - start
}

/// Nanoseconds for an input, medians of the runs, and the median, the least and the largest of their ratios.
pub struct Times {
    pub ours: f64,
    pub theirs: f64,
    pub ratio: f64,
    pub least: f64,
    pub largest: f64,
}

fn sorted(mut values: Vec<f64>) -> Vec<f64> {
    values.sort_by(f64::total_cmp);
    values
}

/// The sums of both sides over a run; the side that begins changes from slice to slice.
fn run(inputs: usize, slices: usize, batch: usize, sides: &mut [Side; 2]) -> [f64; 2] {
    let mut times = [0.0; 2];
    for s in 0..slices {
        let chosen = (s * batch..(s + 1) * batch).map(|i| i % inputs);
        for turn in 0..2 {
            let side = (s + turn) % 2;
            times[side] += slice(&mut sides[side], chosen.clone());
        }
    }
    times
}

/// Ours, then theirs.
pub fn race(inputs: usize, divisor: usize, mut sides: [Side; 2]) -> Times {
    if let Some(&rounds) = ROUNDS.get() {
        for _ in 0..rounds {
            slice(&mut sides[0], 0..inputs);
        }
        return Times { ours: 0.0, theirs: 0.0, ratio: 0.0, least: 0.0, largest: 0.0 };
    }
    slice(&mut sides[0], 0..inputs);
    let each = slice(&mut sides[1], 0..inputs) / inputs as f64;
    let batch = (SLICE / each).ceil() as usize;
    let slices = (SLICES / divisor).max(2);
    let runs: Vec<[f64; 2]> = (0..RUNS).map(|_| run(inputs, slices, batch, &mut sides)).collect();
    let each = |side: usize| sorted(runs.iter().map(|t| t[side] / (slices * batch) as f64).collect())[RUNS / 2];
    let ratios = sorted(runs.iter().map(|t| t[0] / t[1]).collect());
    Times { ours: each(0), theirs: each(1), ratio: ratios[RUNS / 2], least: ratios[0], largest: ratios[RUNS - 1] }
}

/// The same over inputs that nothing is laid ready for.
pub fn against<T>(inputs: &[T], divisor: usize, mut ours: impl FnMut(&T), mut theirs: impl FnMut(&T)) -> Times {
    let at = |i: usize| std::hint::black_box(&inputs[i]);
    let ours = Side { ready: &mut |_| {}, work: &mut |i| ours(at(i)) };
    let theirs = Side { ready: &mut |_| {}, work: &mut |i| theirs(at(i)) };
    race(inputs.len(), divisor, [ours, theirs])
}
