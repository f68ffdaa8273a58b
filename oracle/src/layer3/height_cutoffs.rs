//! The cutoffs that compare heights: the crossover and the error floor.

use super::call;
use super::cutoff_strata::{around_the_end, around_two, ends, fitted, inside, is_around_the_end, set, with_end, DISPERSION, MEAN};
use super::cutoffs::{or_zero, said, unless_refused, CUTOFF};
use super::fits::{fit_and, ordinary, END};
use super::rust::{linked as side, unaltered as plain, FIT_WHOLES};
use crate::call::{own, Call, Kind, Kind::*, Own, Told};
use crate::draw::Draw;
use crate::words::{fit, float};
use crate::{cutoffs, rules};

const READ: &[(&str, Kind)] = fit_and!();

/// Floats of a fit that a stratum sets.
const SINGLE: usize = FIT_WHOLES + 1;
const SINGLETON: usize = FIT_WHOLES + 6;
const TAIL: usize = FIT_WHOLES + 7;

fn crossovers() -> Vec<Own> {
    let answers = |w: &[u64]| rules::window(w[END]).is_none() && side::fit(w).crossover().is_some_and(|c| c > 2);
    let mut strata = vec![
        own("fits of unpack", 60_000, fitted, |w| w[END] >= 30).measured(),
        own("a crossover above 2", 100_000, fitted, answers).measured(),
        own("mean around 2", 60_000, around_two, |w| (float(w, MEAN) - 2.0).abs() < 0.7),
        own("mean around the window end", 60_000, around_the_end, is_around_the_end),
    ];
    strata.extend(ends(ordinary));
    strata
}

/// No error is lower than the lobe at its mode: the single-copy component weighs next to nothing.
fn all_bad(d: &mut Draw, end: u64) -> Vec<u64> {
    let w = with_end(inside(d), end);
    set(set(w, SINGLE, 0.0), SINGLETON, d.between(0.0, 0.5))
}

fn floors() -> Vec<Own> {
    let floor = |w: &[u64]| side::fit(w).error_floor_cutoff();
    let mut strata = vec![
        own("fits of unpack", 60_000, fitted, |w| w[END] >= 30).measured(),
        own("a floor above 2", 100_000, fitted, move |w| rules::window(w[END]).is_none() && floor(w) > 2).measured(),
        own(
            "no reference height",
            20_000,
            |d| {
                let w = inside(d);
                let nan = d.nan();
                set(w, if d.one_in(2) { SINGLE } else { MEAN + 1 }, nan)
            },
            |w| float(w, SINGLE).is_nan() || float(w, DISPERSION).is_nan(),
        ),
        own("the last count bad", 100, |d| all_bad(d, 65_535), move |w| floor(w) == 65_535),
        own(
            "the mode far beyond the counts",
            40_000,
            |d| {
                let mean = d.octaves(16, 70);
                set(ordinary(d), MEAN, mean)
            },
            |w| float(w, MEAN) > 65_536.0,
        ),
        own(
            "no tail",
            20_000,
            |d| {
                let w = inside(d);
                set(w, TAIL, d.nan())
            },
            |w| float(w, TAIL).is_nan(),
        ),
    ];
    strata.extend(ends(ordinary));
    strata
}

pub fn calls() -> Vec<Call> {
    vec![
        Call {
            own: crossovers(),
            unaltered: Some(|w| unless_refused(w, 1, plain::fit, |fit| vec![0, or_zero(fit.crossover())])),
            told: Told::COUNT,
            ..call(
                87,
                "crossover",
                READ,
                CUTOFF,
                ordinary,
                |w| said(cutoffs::crossover(fit(w))),
                |w| unless_refused(w, 1, side::fit, |fit| vec![0, or_zero(fit.crossover())]),
            )
        },
        Call {
            own: floors(),
            unaltered: Some(|w| unless_refused(w, 1, plain::fit, |fit| vec![0, fit.error_floor_cutoff().into()])),
            told: Told::COUNT,
            ..call(
                91,
                "error_floor_cutoff",
                READ,
                CUTOFF,
                ordinary,
                |w| said(cutoffs::error_floor_cutoff(fit(w))),
                |w| unless_refused(w, 1, side::fit, |fit| vec![0, fit.error_floor_cutoff().into()]),
            )
        },
    ]
}
