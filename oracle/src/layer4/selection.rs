//! Attempts, and the fit that is selected out of four.

use super::attempts::linked::REASONS;
use super::call;
use crate::call::{own, Answer, Call, Kind, Kind::*, Own};
use crate::draw::Draw;
use crate::layer3::fits::ordinary as any_fit;
use crate::layer3::rust::{linked as side, FIT};
use crate::linked::spectrum_fitter::{self, FitAttempt, FitRejection};
use crate::port;
use crate::words::{fit, fit_words, float};

const ONE: &[(&str, Kind)] = &[("attempt", Other)];
const FOUR: &[(&str, Kind)] = &[("attempts", Other)];

/// An attempt in words: two families, three of presence and reason, iterations, capped starts, and the candidate.
pub const BEFORE: usize = 7;
pub const ATTEMPT: usize = BEFORE + FIT;
pub const HELD: usize = 2;
pub const REJECTED: usize = 3;
pub const REASON: usize = 4;
const BIC: usize = BEFORE + 23;

// ---- drawing

fn attempt(d: &mut Draw, bic: f64) -> Vec<u64> {
    let before = [d.family().into(), d.family().into(), d.present(), 0, d.below(11), d.word(), d.below(1 << 32)];
    let mut w = [before.to_vec(), any_fit(d)].concat();
    w[BIC] = bic.to_bits();
    w
}

/// Whether there is a candidate, and whether it is rejected.
fn stand(d: &mut Draw, w: &mut [u64], (held, rejected): (bool, bool)) {
    w[HELD] = if held { d.present() } else { 0 };
    w[REJECTED] = if rejected { d.present() } else { 0 };
}

/// Turns it away: rejected, or without a candidate, or both.
fn spoil(d: &mut Draw, w: &mut [u64]) {
    let case = d.pick(&[(true, true), (false, false), (false, true)]);
    stand(d, w, case);
}

fn four(d: &mut Draw, bics: [f64; 4]) -> Vec<u64> {
    bics.iter().flat_map(|&bic| attempt(d, bic)).collect()
}

/// BICs within a few tolerances of each other, and now and then one turned away.
fn near(d: &mut Draw) -> Vec<u64> {
    let base = d.octaves(5, 31);
    let base = d.sign(base);
    let bics = [(); 4].map(|()| base + (1.0 + base.abs()) * 1e-9 * d.between(-3.0, 3.0));
    let mut w = four(d, bics);
    for at in attempts(&mut w) {
        if d.one_in(5) {
            spoil(d, at);
        }
    }
    w
}

fn attempts(w: &mut [u64]) -> impl Iterator<Item = &mut [u64]> {
    w.chunks_exact_mut(ATTEMPT)
}

fn bic(w: &[u64], i: usize) -> f64 {
    float(w, i * ATTEMPT + BIC)
}

fn valid(w: &[u64]) -> bool {
    w[HELD] != 0 && w[REJECTED] == 0
}

fn valid_ones(w: &[u64]) -> usize {
    w.chunks_exact(ATTEMPT).filter(|w| valid(w)).count()
}

/// The bound that a later BIC must be below.
fn bound(best: f64, next: f64) -> f64 {
    best - 1e-9 * (1.0 + best.abs().max(next.abs()))
}

// ---- the two programs

fn reason(word: u64) -> FitRejection {
    REASONS.get(word as usize).copied().unwrap_or(FitRejection::OptimisationFailed)
}

fn theirs(w: &[u64]) -> FitAttempt {
    FitAttempt {
        error_model: side::error_model(w[0]),
        genome_model: side::genome_model(w[1]),
        candidate: (w[HELD] != 0).then(|| side::fit(&w[BEFORE..])),
        rejection: (w[REJECTED] != 0).then(|| reason(w[REASON])),
        total_iterations: w[5],
        capped_starts: w[6] as u32,
    }
}

fn ours(w: &[u64]) -> port::Attempt {
    port::Attempt {
        error_model: w[0] as u8,
        genome_model: w[1] as u8,
        has_candidate: w[HELD] as u8,
        candidate: fit(&w[BEFORE..]),
        rejection_present: w[REJECTED] as u8,
        rejection: w[REASON] as u8,
        total_iterations: w[5],
        capped_starts: w[6] as u32,
    }
}

fn port_select(w: &[u64]) -> Vec<u64> {
    let each: Vec<port::Attempt> = w.chunks_exact(ATTEMPT).map(ours).collect();
    let answer = port::select_fit(each[0], each[1], each[2], each[3]);
    [vec![answer.found.into()], fit_words(&answer.fit)].concat()
}

fn linked_select(w: &[u64]) -> Vec<u64> {
    let each: Vec<FitAttempt> = w.chunks_exact(ATTEMPT).map(theirs).collect();
    match spectrum_fitter::select_fit(&each) {
        Some(fit) => [vec![1], side::fit_words(&fit)].concat(),
        None => vec![0; 1 + FIT],
    }
}

// ---- strata

fn strata() -> Vec<Own> {
    let bics = |name: &str, wanted: u64, draw: fn(&mut Draw) -> [f64; 4], meets: fn(&[u64]) -> bool| {
        own(
            name,
            wanted,
            move |d| {
                let bics = draw(d);
                four(d, bics)
            },
            meets,
        )
    };
    let mut strata = vec![
        bics("far apart", 50_000, |d| [(); 4].map(|()| d.octaves(4, 30)), |w| valid_ones(w) == 4),
        bics("falling by less than the tolerance at each step", 50_000, |d| {
            let base = d.octaves(4, 30);
            let step = (1.0 + base) * 1e-9 * d.between(0.4, 0.99);
            [base, base - step, base - 2.0 * step, base - 3.0 * step]
        }, |w| bic(w, 1) >= bound(bic(w, 0), bic(w, 1)) && bic(w, 3) < bound(bic(w, 0), bic(w, 3))),
        bics("falling by more at each step", 50_000, |d| {
            let base = d.octaves(4, 30);
            let step = (1.0 + base) * 1e-9 * d.between(1.01, 3.0);
            [base, base - step, base - 2.0 * step, base - 3.0 * step]
        }, |w| (0..3).all(|i| bic(w, i + 1) < bound(bic(w, i), bic(w, i + 1)))),
        bics("at and beside the bound", 100_000, |d| {
            let base = d.octaves(4, 30);
            let base = d.sign(base);
            let next = bound(base, base);
            let beside = |d: &mut Draw| f64::from_bits((next.to_bits() + d.below(9)).saturating_sub(4));
            [base, beside(d), beside(d), beside(d)]
        }, |_| true),
        bics("all level", 20_000, |d| [d.octaves(4, 30); 4], |w| bic(w, 0) == bic(w, 3)),
        bics("of any bits", 100_000, |d| [(); 4].map(|()| d.any()), |_| true),
        bics("extreme", 100_000, |d| [(); 4].map(|()| d.extreme()), |_| true),
        bics("zeros of both signs", 20_000, |d| [(); 4].map(|()| d.sign(0.0)), |_| true),
        bics("100, then 99.99999995 or 99.9999", 20_000, |d| {
            let next = d.pick(&[99.99999995, 99.9999]);
            [100.0, next, 200.0, 200.0]
        }, |_| true),
    ];
    for i in 0..4 {
        let put = move |by: fn(&mut Draw) -> f64| {
            move |d: &mut Draw| {
                let mut w = near(d);
                w[i * ATTEMPT + BIC] = by(d).to_bits();
                w
            }
        };
        strata.push(own(&format!("BIC {i} a NaN"), 20_000, put(Draw::nan), move |w| bic(w, i).is_nan()));
        strata.push(own(&format!("BIC {i} infinite"), 20_000, put(Draw::infinity), move |w| bic(w, i).is_infinite()));
        let alone = move |d: &mut Draw| {
            let mut w = near(d);
            for (j, at) in attempts(&mut w).enumerate() {
                if j == i {
                    stand(d, at, (true, false));
                } else {
                    spoil(d, at);
                }
            }
            w
        };
        strata.push(own(&format!("only attempt {i} valid"), 20_000, alone, move |w| valid_ones(w) == 1 && valid(&w[i * ATTEMPT..])));
    }
    let none = |d: &mut Draw| {
        let mut w = near(d);
        attempts(&mut w).for_each(|at| spoil(d, at));
        w
    };
    strata.push(own("none valid", 20_000, none, |w| valid_ones(w) == 0));
    strata
}

fn one(d: &mut Draw) -> Vec<u64> {
    let bic = d.octaves(4, 30);
    let mut w = attempt(d, bic);
    if d.one_in(2) {
        spoil(d, &mut w);
    }
    w
}

fn strata_of_one() -> Vec<Own> {
    let stratum = |name: &str, case: (bool, bool)| {
        let draw = move |d: &mut Draw| {
            let mut w = one(d);
            stand(d, &mut w, case);
            w
        };
        own(name, 50_000, draw, move |w| (w[HELD] != 0, w[REJECTED] != 0) == case)
    };
    vec![
        stratum("a candidate", (true, false)),
        stratum("a rejected candidate", (true, true)),
        stratum("no candidate, and a reason", (false, true)),
        stratum("no candidate, and no reason", (false, false)),
    ]
}

pub fn calls() -> Vec<Call> {
    vec![
        Call {
            own: strata_of_one(),
            ..call(
                103,
                "is_valid",
                ONE,
                Answer::Whole,
                one,
                |w| vec![port::is_valid(ours(w)).into()],
                |w| vec![u64::from(theirs(w).rejection.is_none() && theirs(w).candidate.is_some())],
            )
        },
        Call { own: strata(), ..call(104, "select_fit", FOUR, Answer::Flagged, near, port_select, linked_select) },
    ]
}
