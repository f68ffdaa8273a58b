//! The hole cutoff, and whether its sums are near.

use super::call;
use super::cutoff_strata::{budget, holes, ordinary_hole, sures};
use super::fits::{fit_and, END};
use super::rust::linked as side;
use crate::call::{Answer, Call, Kind, Kind::*};
use crate::linked::math_helpers::ln_single_copy;
use crate::linked::models::SpectrumFit;
use crate::linked::Routines;
use crate::words::fit;
use crate::{cutoffs, rules};

const HOLE: &[(&str, Kind)] = fit_and!(("budget", Float));

/// The number, and the cutoff or 0 for none.
pub const CUTOFF: Answer = Answer::Given { whole: 1, floats: 0 };

pub fn said(answer: cutoffs::Cutoff) -> Vec<u64> {
    vec![answer.number.into(), answer.cutoff.into()]
}

pub fn or_zero(cutoff: Option<u16>) -> u64 {
    cutoff.unwrap_or(0).into()
}

/// The number of a window end, or the Rust's answer for the fit of one of its builds.
pub fn unless_refused<F>(w: &[u64], beside: usize, fit: fn(&[u64]) -> F, answer: impl FnOnce(F) -> Vec<u64>) -> Vec<u64> {
    match rules::window(w[END]) {
        Some(number) => [vec![number], vec![0; beside]].concat(),
        None => answer(fit(w)),
    }
}

// ---- whether the sums of the walk are near

/// Where the walk starts, the probabilities from 0 to the ceiling.
pub fn probabilities(fit: &SpectrumFit) -> Option<Vec<f64>> {
    if fit.genome_kmers <= 0.0 || !fit.mean.is_finite() || fit.mean < 2.0 || fit.fit_window_end < 2 {
        return None;
    }
    let ceiling = (fit.mean.round() as usize).min(fit.fit_window_end);
    let single = |count: usize| ln_single_copy(count as f64, fit.mean, fit.dispersion, fit.shelf).fog_exp();
    Some((0..=ceiling).map(single).collect())
}

/// The walk starts, the allowed share is finite, and each probability is from 0 to 2.
pub fn sure(fit: &SpectrumFit, budget: f64) -> bool {
    let near = |all: Vec<f64>| all.iter().all(|p| (0.0..=2.0).contains(p));
    (budget / fit.genome_kmers).is_finite() && probabilities(fit).is_some_and(near)
}

fn linked_sure(w: &[u64]) -> Vec<u64> {
    unless_refused(w, 3, side::fit, |fit| {
        let walk = u64::from(probabilities(&fit).is_some());
        vec![0, walk, u64::from(sure(&fit, budget(w))), or_zero(fit.hole_cutoff(budget(w)))]
    })
}

fn port_sure(w: &[u64]) -> Vec<u64> {
    let answer = cutoffs::hole_cutoff_sure(fit(w), budget(w));
    vec![answer.number.into(), answer.walk.into(), answer.sure.into(), answer.cutoff.into()]
}

pub fn calls() -> Vec<Call> {
    vec![
        Call {
            own: holes(),
            ..call(
                85,
                "hole_cutoff",
                HOLE,
                CUTOFF,
                ordinary_hole,
                |w| said(cutoffs::hole_cutoff(fit(w), budget(w))),
                |w| unless_refused(w, 1, side::fit, |fit| vec![0, or_zero(fit.hole_cutoff(budget(w)))]),
            )
        },
        Call {
            own: sures(),
            ..call(86, "hole_cutoff_sure", HOLE, Answer::Given { whole: 3, floats: 0 }, ordinary_hole, port_sure, linked_sure)
        },
    ]
}
