//! Spectra and starts for searches: simulated and made ones, and starts far out.

use super::asked::Asked;
use crate::draw::Draw;
use crate::layer3::Problem;
use crate::search;

pub const FAMILIES: [(u8, u8, &str); 4] = [(0, 0, "Weibull"), (0, 1, "Weibull with shelf"), (1, 0, "Pareto"), (1, 1, "Pareto with shelf")];

pub fn families(d: &mut Draw) -> (u8, u8) {
    (d.family(), d.family())
}

/// A simulated spectrum with the peak at a sixth of the window, and a start of the Rust's.
pub fn simulated(d: &mut Draw, (error, genome): (u8, u8)) -> Problem {
    let peak = 3 + d.below(4);
    search::problem(d, error, genome, 6 * peak)
}

/// A made spectrum with gaps, in a small window, and a start of document 01 with noise.
pub fn made(d: &mut Draw, (error, genome): (u8, u8)) -> Problem {
    Problem::of(d, error, genome)
}

/// A simulated spectrum with a peak that is none.
pub fn poor(d: &mut Draw, families: (u8, u8)) -> Problem {
    let mut p = simulated(d, families);
    p.peak = 2 + d.below(p.window_end - 2);
    p
}

pub fn either(d: &mut Draw, families: (u8, u8)) -> Problem {
    match d.below(3) {
        0 => simulated(d, families),
        1 => made(d, families),
        _ => poor(d, families),
    }
}

/// With every start of the Rust's in its list.
pub fn every_start(d: &mut Draw, families: (u8, u8)) -> Problem {
    let mut p = simulated(d, families);
    p.theta = search::starts(d, &p).concat();
    p
}

/// With so many drawn starts.
pub fn several(d: &mut Draw, mut p: Problem, starts: u64) -> Problem {
    p.theta = (0..starts).flat_map(|_| p.list(d)).collect();
    p
}

/// Entries of the start put to `by`: one at least.
pub fn put(d: &mut Draw, p: &mut Problem, by: fn(&mut Draw) -> f64) {
    let one = d.below(p.theta.len() as u64) as usize;
    for i in 0..p.theta.len() {
        if i == one || d.one_in(4) {
            p.theta[i] = by(d);
        }
    }
}

/// Entries so large that 0.5 more is no more, where a cost can still be finite: the mode and the repeat's ratio.
pub fn flat(d: &mut Draw, p: &mut Problem) {
    let (far, ratio) = (d.octaves(54, 60), p.base());
    p.theta[2] = d.sign(far);
    if d.one_in(2) {
        p.theta[ratio] = d.sign(far);
    }
}

/// No repeats, so that their ratio changes no cost.
pub fn without_repeats(p: &mut Problem) {
    p.theta[1] = -800.0;
}

/// A start around which every list costs infinitely much: the singleton probability is 1, the dispersion infinite, or a number a NaN.
pub fn hopeless(d: &mut Draw, families: (u8, u8)) -> Problem {
    let mut p = either(d, families);
    match d.below(3) {
        0 => p.theta[5] = d.between(60.0, 800.0),
        1 => p.theta[3] = d.between(750.0, 900.0),
        _ => p.theta[0] = d.nan(),
    }
    p
}

/// Limits that are cut anywhere: to the end of every run, or not.
pub fn limits(d: &mut Draw, cap: u64) -> Vec<u64> {
    let few = |d: &mut Draw| 1 + d.below(6);
    match d.below(7) {
        0 => vec![u64::MAX],
        1 => vec![d.below(cap + 2)],
        2 => (0..few(d)).map(|_| d.below(cap / 4)).chain([u64::MAX]).collect(),
        3 => (0..2 * few(d)).map(|_| d.below(3)).chain([cap]).collect(),
        4 => vec![0, d.below(cap), 0, cap, 1],
        5 => vec![cap - 1 - d.below(2), 1, 1, 1],
        _ => (0..few(d)).map(|_| d.below(60)).collect(),
    }
}

/// A whole search from the problem's starts.
pub fn search(d: &mut Draw, p: Problem) -> Asked {
    let mut a = Asked::from_starts(d, p);
    a.limits = limits(d, a.cap());
    a
}
