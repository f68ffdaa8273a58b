//! How fast the port reads and writes, beside the reader and the writer of `file.rs`.

use crate::draw::Draw;
use crate::file::{self, LONGEST};
use crate::made::{any_bin, one_byte_bin};
use crate::port;
use std::hint::black_box;

/// A run has turns of both sides, each of a millisecond or so: what else the machine does then slows both alike.
const FILES: usize = 64;
const TURNS: usize = 60;
const RUNS: usize = 9;
const TURN: f64 = 1e6;

#[repr(C)]
struct Time {
    seconds: i64,
    nanoseconds: i64,
}

extern "C" {
    fn clock_gettime(clock: i32, time: *mut Time) -> i32;
}

/// Nanoseconds of processor time of this process.
fn processor_time() -> f64 {
    const PROCESS: i32 = 2;
    let mut time = Time { seconds: 0, nanoseconds: 0 };
    let status = unsafe { clock_gettime(PROCESS, &mut time) };
    assert!(status == 0);
    time.seconds as f64 * 1e9 + time.nanoseconds as f64
}

struct Sample {
    bins: Vec<u32>,
    file: Vec<u8>,
}

/// About 150 bins: an error tail, a peak at 40, a small one at 80, and few k-mers behind.
fn spectrum(draw: &mut Draw) -> Vec<u32> {
    let peak = |count: f64, at: f64, wide: f64| {
        let off = (count - at) / wide;
        1.0 / (1.0 + off * off * off * off)
    };
    let bin = |count: u64, draw: &mut Draw| {
        let c = count as f64;
        let lobes = 150_000.0 * peak(c, 40.0, 14.0) + 9_000.0 * peak(c, 80.0, 22.0);
        let n = 60_000_000.0 / (c * c * c) + lobes;
        (n * draw.between(0.9, 1.1)) as u32
    };
    let bins = 140 + draw.below(21);
    (1..=bins).map(|count| bin(count, draw)).collect()
}

fn samples(kind: &str, bins: fn(&mut Draw) -> Vec<u32>) -> Vec<Sample> {
    let mut draw = Draw::named(kind);
    let sample = |_| {
        let bins = bins(&mut draw);
        let mut file = Vec::new();
        file::write(&bins, &mut file).expect("a file holds so many bins");
        Sample { bins, file }
    };
    (0..FILES).map(sample).collect()
}

/// Nanoseconds for one file, on the mean over all of them.
fn turn(samples: &[Sample], passes: usize, work: &mut dyn FnMut(&Sample)) -> f64 {
    let start = processor_time();
    for _ in 0..passes {
        for sample in samples {
            work(black_box(sample));
        }
    }
    (processor_time() - start) / (passes * samples.len()) as f64
}

fn median(values: &mut [f64]) -> f64 {
    values.sort_by(f64::total_cmp);
    values[values.len() / 2]
}

/// A row, and the ratio.
fn race(call: &str, kind: &str, samples: &[Sample], ours: &mut dyn FnMut(&Sample), theirs: &mut dyn FnMut(&Sample)) -> f64 {
    turn(samples, 1, ours);
    let passes = 1 + (TURN / (turn(samples, 1, theirs) * FILES as f64)) as usize;
    let (mut our_times, mut their_times, mut ratios) = (vec![], vec![], vec![]);
    for _ in 0..RUNS {
        let (mut our_time, mut their_time) = (0.0, 0.0);
        for _ in 0..TURNS {
            our_time += turn(samples, passes, ours) / TURNS as f64;
            their_time += turn(samples, passes, theirs) / TURNS as f64;
        }
        our_times.push(our_time);
        their_times.push(their_time);
        ratios.push(our_time / their_time);
    }
    let bytes = samples.iter().map(|sample| sample.file.len()).sum::<usize>() as f64 / FILES as f64;
    let (our_time, their_time, ratio) = (median(&mut our_times), median(&mut their_times), median(&mut ratios));
    let speed = |time: f64| format!("{time:.0} | {:.0}", bytes * 1e3 / time);
    let spread = format!("{ratio:.3} ({:.3}–{:.3})", ratios[0], ratios[RUNS - 1]);
    print!("| {call} | {kind} | {bytes:.0} | {} | {} | {spread} | ", speed(our_time), speed(their_time));
    ratio
}

/// The end of a row that has a bar; whether it is met.
fn barred(ratio: f64) -> bool {
    println!("1.0 {} |", if ratio <= 1.0 { "met" } else { "**missed**" });
    ratio <= 1.0
}

pub fn measure() -> bool {
    let kinds: [(&str, fn(&mut Draw) -> Vec<u32>); 3] = [
        ("2,047 bins of one byte", |draw| (0..2047).map(|_| one_byte_bin(draw)).collect()),
        ("2,047 bins of 1 to 5 bytes", |draw| (0..2047).map(|_| any_bin(draw)).collect()),
        ("a spectrum of about 150 bins", spectrum),
    ];
    println!("Nanoseconds a file and megabytes a second, on {FILES} files of each kind; medians of {RUNS} runs, the port and the Rust");
    println!("by turns, and of their ratios (lowest–highest).\n");
    println!("| call | files | bytes | ours, ns | MB/s | Rust, ns | MB/s | ratio | bar |\n|---|---|---|---|---|---|---|---|---|");
    let (mut bins, mut out) = (vec![0u32; 2047], vec![0u8; LONGEST]);
    let (mut their_bins, mut their_out) = (Vec::with_capacity(2047), Vec::with_capacity(LONGEST));
    let mut met = true;
    for (kind, draw) in kinds {
        let samples = samples(kind, draw);
        let mut read = |s: &Sample| _ = black_box(port::read(&s.file, &mut bins));
        let mut their_read = |s: &Sample| black_box(file::read(&s.file, &mut their_bins)).expect("the file is valid");
        met &= barred(race("read", kind, &samples, &mut read, &mut their_read));
        let mut their_write = |s: &Sample| black_box(file::write(&s.bins, &mut their_out)).expect("a file holds so many bins");
        let mut write = |s: &Sample| _ = black_box(port::write(&s.bins, &mut out));
        met &= barred(race("write", kind, &samples, &mut write, &mut their_write));
        let mut write_exactly = |s: &Sample| _ = black_box(port::write(&s.bins, &mut out[..s.file.len()]));
        race("write, bytes exact", kind, &samples, &mut write_exactly, &mut their_write);
        println!("none |");
    }
    println!();
    met
}
