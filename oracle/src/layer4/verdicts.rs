//! The validator: a fit, the mass limit, the valley and the peak.

use super::call;
use super::validator::{first, linked::rules as apply, refusals, unaltered::rules as apply_plain};
use crate::call::{own, Answer, Call, Kind, Kind::*, Own, Told};
use crate::draw::Draw;
use crate::layer3::fits::fit_and;
use crate::layer3::rust::{linked as side, unaltered as plain, FIT};
use crate::words::{fit, float};
use crate::{port, rules};

const FITTED: &[(&str, Kind)] = fit_and!(("mass_limit", Float), ("valley", Other), ("peak", Other));

/// Where a stratum sets something.
const END: usize = 4;
const WEIGHT: usize = 6;
const MEAN: usize = 9;
const DISPERSION: usize = 10;
const TARGET: usize = 11;
const SINGLETON: usize = 12;
const TAIL: usize = 13;
const SHAPE: usize = 14;
const SHARE: usize = 15;
const RATIO: usize = 18;
const LIKELIHOOD: usize = 22;
const MASS: usize = 25;
const TOTAL: usize = 28;
const FULL: usize = 32;
const LIMIT: usize = FIT;
const VALLEY: usize = FIT + 1;
const PEAK: usize = FIT + 2;

// ---- drawing

fn put(w: &mut [u64], i: usize, x: f64) {
    w[i] = x.to_bits();
}

/// Fields as a valid fit has them: the mode in the band about the peak, the errors highest at count 1.
fn valid(d: &mut Draw) -> Vec<u64> {
    let peak = 4 + d.below(22);
    let mode = (peak as f64 * d.between(0.8, 1.3)) as u64;
    let dispersion = if d.one_in(4) { 1.0 } else { 1.0 + d.octaves(-8, 2) };
    let mean = mode as f64 + (dispersion - 1.0) + d.between(0.1, 0.9);
    let target = mean - (dispersion - 1.0) + d.between(-0.4, 0.4);
    let end = mode + 1 + d.below(12);
    let (total, limit) = (d.between(10.0, 25.0), 1.0 + d.octaves(-5, 0));
    let full = d.octaves(37, 40);
    let mut w = vec![d.family().into(), d.family().into(), d.presence(), d.below(2), end, d.below(2000)];
    let floats = [
        [d.between(0.0, 1.0), d.between(0.0, 1.0), d.between(0.0, 1.0), mean, dispersion, target].to_vec(),
        [d.between(0.5, 1.0), d.octaves(0, 3), d.octaves(-4, 1)].to_vec(),
        [d.between(0.01, 0.49), d.between(1.0, 4.0), d.between(0.5, 2.0), d.between(1.6, 2.0)].to_vec(),
        [d.octaves(8, 30), d.octaves(8, 30), d.octaves(8, 30), -d.octaves(4, 30), d.octaves(5, 31), d.octaves(0, 20)].to_vec(),
        [-d.octaves(-30, 2), -d.octaves(-30, 2), -d.octaves(-30, 2)].to_vec(),
        [total, d.between(2.0, total), d.between(2.0, total), d.octaves(8, 30), full, limit].to_vec(),
    ];
    w.extend(floats.concat().iter().map(|x| x.to_bits()));
    w.extend([2 + d.below(8), peak]);
    w
}

/// Few singletons, and a tail that is highest some counts on.
fn errors_rise(d: &mut Draw, w: &mut [u64]) {
    w[2] = d.present();
    put(w, SINGLETON, d.octaves(-40, -20));
    put(w, TAIL, d.octaves(-9, -4));
    put(w, SHAPE, d.between(2.0, 4.0));
    w[END] = w[END].max(12);
}

/// Changes a fit so that a rule applies.
fn turn_away(d: &mut Draw, w: &mut [u64], rule: usize) {
    let (mean, dispersion, limit) = (float(w, MEAN), float(w, DISPERSION), float(w, LIMIT));
    match rule {
        1 => {
            let bad = if d.one_in(2) { d.nan() } else { d.infinity() };
            put(w, LIKELIHOOD + d.below(3) as usize, bad);
        }
        2 => match d.below(4) {
            0 => {
                let bad = d.pick(&[-1e-300, 1.0 + f64::EPSILON, f64::NAN, -0.5, 2.0, f64::INFINITY]);
                put(w, WEIGHT + d.below(3) as usize, bad);
            }
            1 => {
                let bad = d.pick(&[0.0, -0.0, -1.0, f64::NAN, f64::INFINITY]);
                put(w, MEAN, bad);
            }
            2 => {
                let bad = d.pick(&[1.0 - f64::EPSILON, 0.0, f64::NAN, f64::INFINITY]);
                put(w, DISPERSION, bad);
            }
            _ => {
                w[3] = d.present();
                let bad = d.pick(&[0.0, 0.5, f64::NAN, 0.9]);
                put(w, SHARE, bad);
            }
        },
        3 => {
            let bad = d.pick(&[1.1e-12, 1.0, f64::NAN, f64::INFINITY, f64::NEG_INFINITY]);
            put(w, MASS + d.below(3) as usize, bad);
        }
        4 => {
            let ln_full = port::ln(float(w, FULL));
            let bad = if d.one_in(4) { f64::NAN } else { ln_full + port::ln(limit) + d.octaves(-20, 4) };
            if bad.is_nan() {
                put(w, FULL, bad);
            } else {
                put(w, TOTAL + d.below(3) as usize, bad);
            }
        }
        5 => {
            let off = 0.5 + d.octaves(-20, 8);
            let bad = if d.one_in(4) { d.nan() } else { mean - (dispersion - 1.0) + d.sign(off) };
            put(w, TARGET, bad);
        }
        6 if d.one_in(2) => w[END] = 1 + d.below((mean as u64).clamp(1, 60)),
        6 => {
            put(w, MEAN, dispersion - 1.0 + d.between(0.01, 0.99));
            put(w, TARGET, d.between(0.3, 0.7));
        }
        7 if d.one_in(3) => put(w, TAIL, d.nan()),
        7 => {
            errors_rise(d, w);
            w[VALLEY] = 2;
        }
        8 => w[PEAK] = if d.one_in(2) { w[PEAK] * 3 + 8 } else { 2 },
        9 => put(w, RATIO, d.between(0.1, 1.0)),
        _ => {
            let bad = if d.one_in(4) { f64::INFINITY } else { d.octaves(-30, 20) };
            put(w, LIKELIHOOD, bad);
        }
    }
}

/// Changes a fit so that a number of document 01 applies.
fn refuse(d: &mut Draw, w: &mut [u64], number: u64) {
    match number {
        1 => w[VALLEY + d.below(2) as usize] = d.below(2),
        2 => {
            let i = d.pick(&[VALLEY, PEAK, END]);
            w[i] = d.window_too_far();
        }
        5 => w[END] = 0,
        _ => {
            let bad = d.pick(&[f64::NAN, f64::INFINITY, f64::NEG_INFINITY, 1.0 - f64::EPSILON, 0.0, -1.0, 0.5]);
            put(w, LIMIT, bad);
        }
    }
}

// ---- the three programs

fn refused(w: &[u64]) -> [(u64, bool); 4] {
    refusals(w[END], w[VALLEY], w[PEAK], float(w, LIMIT))
}

fn applied(w: &[u64]) -> [bool; 10] {
    apply(&side::fit(w), w[VALLEY], w[PEAK], float(w, LIMIT))
}

fn applied_plain(w: &[u64]) -> [bool; 10] {
    apply_plain(&plain::fit(w), w[VALLEY], w[PEAK], float(w, LIMIT))
}

fn written(w: &[u64], applied: fn(&[u64]) -> [bool; 10]) -> Vec<u64> {
    match rules::first(&refused(w)) {
        Some(number) => vec![number, 0],
        None => vec![0, first(applied(w))],
    }
}

fn judged(w: &[u64]) -> Vec<u64> {
    let answer = port::validate_fit(fit(w), w[VALLEY] as usize, w[PEAK] as usize, float(w, LIMIT));
    vec![answer.number.into(), answer.reason.into()]
}

// ---- strata

fn reason(w: &[u64]) -> Option<u64> {
    rules::first(&refused(w)).is_none().then(|| first(applied(w)))
}

fn changed(change: impl Fn(&mut Draw, &mut [u64]) + 'static) -> impl Fn(&mut Draw) -> Vec<u64> + 'static {
    move |d| {
        let mut w = valid(d);
        change(d, &mut w);
        w
    }
}

/// Each rule alone as the first, and each pair of rules that apply together, the first of which is the answer.
fn strata_of_rules() -> Vec<Own> {
    let mut strata = vec![own("valid", 100_000, valid, |w| reason(w) == Some(0)).measured()];
    for i in 1..=10 {
        let rule = own(&format!("rule {i}"), 20_000, changed(move |d, w| turn_away(d, w, i)), move |w| reason(w) == Some(i as u64));
        strata.push(rule.measured());
        for j in i + 1..=10 {
            let both = move |d: &mut Draw, w: &mut [u64]| {
                turn_away(d, w, j);
                turn_away(d, w, i);
            };
            strata.push(own(&format!("rules {i} and {j}"), 1_000, changed(both), move |w| reason(w) == Some(i as u64) && applied(w)[j - 1]));
        }
    }
    strata
}

fn strata_of_limits() -> Vec<Own> {
    let passes = |name: &str, change: fn(&mut Draw, &mut [u64]), meets: fn(&[u64]) -> bool| {
        own(name, 10_000, changed(change), move |w| reason(w).is_some() && meets(w))
    };
    vec![
        passes("weights of 0, -0 and 1", |d, w| (0..3).for_each(|i| put(w, WEIGHT + i, d.pick(&[0.0, -0.0, 1.0]))), |w| !applied(w)[1]),
        passes("dispersion of exactly 1", |_, w| {
            let mode = float(w, MEAN) - (float(w, DISPERSION) - 1.0);
            put(w, DISPERSION, 1.0);
            put(w, MEAN, mode);
        }, |w| float(w, DISPERSION) == 1.0 && !applied(w)[1]),
        passes("a log mass at and beside 1e-12", |d, w| put(w, MASS + d.below(3) as usize, d.beside(1e-12, 2)), |w| reason(w) != Some(2)),
        passes("the totals beside the limit", |d, w| {
            let at = port::ln(float(w, FULL)) + port::ln(float(w, LIMIT));
            put(w, TOTAL, d.beside(at, 4));
            put(w, TOTAL + 1, f64::NEG_INFINITY);
            put(w, TOTAL + 2, f64::NEG_INFINITY);
        }, |w| reason(w) == Some(0) || reason(w) == Some(4)).measured(),
        passes("totals that are -inf", |_, w| (0..3).for_each(|i| put(w, TOTAL + i, f64::NEG_INFINITY)), |w| !applied(w)[3]),
        passes("a NaN among totals of -inf", |d, w| {
            (0..3).for_each(|i| put(w, TOTAL + i, f64::NEG_INFINITY));
            put(w, TOTAL + d.below(3) as usize, d.nan());
        }, |w| !applied(w)[3]),
        passes("a limit of exactly 1", |_, w| put(w, LIMIT, 1.0), |w| float(w, LIMIT) == 1.0),
        passes("a round trip of exactly 0.5", |d, w| {
            put(w, DISPERSION, 1.0);
            let mean = d.whole(3, 30);
            put(w, MEAN, mean);
            put(w, TARGET, mean + d.sign(0.5));
        }, |w| side::fit(w).mode_roundtrip_error() == 0.5 && !applied(w)[4]),
        passes("the mode at the window end", |_, w| w[END] = side::fit(w).primary_mode() as u64, |w| {
            w[END] == side::fit(w).primary_mode() as u64 && !applied(w)[5]
        }),
        passes("the error mode at the valley", |d, w| {
            errors_rise(d, w);
            w[VALLEY] = side::fit(w).error_mode() as u64;
        }, |w| side::fit(w).error_mode() as u64 == w[VALLEY] && !applied(w)[6]).measured(),
        passes("the error mode one above the valley", |d, w| {
            errors_rise(d, w);
            w[VALLEY] = side::fit(w).error_mode() as u64 - 1;
        }, |w| side::fit(w).error_mode() as u64 == w[VALLEY] + 1 && reason(w) == Some(7)).measured(),
        passes("the mode at and beside the band's ends", |d, w| {
            let ends = [(float(w, MEAN) as u64 + 1) * 4 / 3, float(w, MEAN) as u64 * 100 / 133];
            w[PEAK] = (d.pick(&ends) + d.below(3)).saturating_sub(1).max(2);
        }, |w| reason(w) == Some(0) || reason(w) == Some(8)),
        passes("the repeats' mode at the primary one", |_, w| put(w, RATIO, 1.0), |w| reason(w) == Some(9)),
        passes("a log-likelihood of 0 or -0", |d, w| put(w, LIKELIHOOD, d.sign(0.0)), |w| reason(w) == Some(0)),
        passes("valley, peak and window end of 65,535", |d, w| {
            w[d.pick(&[VALLEY, PEAK])] = 65_535;
            if d.one_in(50) {
                w[END] = 65_535;
            }
        }, |_| true),
    ]
}

fn strata_of_refusals() -> Vec<Own> {
    const NUMBERS: [u64; 4] = [1, 2, 5, 9];
    let mut strata = vec![];
    for (i, &a) in NUMBERS.iter().enumerate() {
        let exactly = |numbers: &'static [u64]| move |w: &[u64]| refused(w).iter().all(|(n, holds)| *holds == numbers.contains(n));
        let alone: &'static [u64] = &NUMBERS[i..=i];
        strata.push(own(&format!("refusal {a}"), 20_000, changed(move |d, w| refuse(d, w, a)), exactly(alone)));
        for &b in &NUMBERS[i + 1..] {
            let both = move |d: &mut Draw, w: &mut [u64]| {
                refuse(d, w, a);
                refuse(d, w, b);
            };
            let meets = move |w: &[u64]| refused(w).iter().all(|(n, holds)| *holds == [a, b].contains(n));
            strata.push(own(&format!("refusals {a} and {b}"), 10_000, changed(both), meets));
        }
    }
    strata
}

pub fn calls() -> Vec<Call> {
    vec![Call {
        own: [strata_of_rules(), strata_of_limits(), strata_of_refusals()].into_iter().flatten().collect(),
        unaltered: Some(|w| written(w, applied_plain)),
        told: Told::VERDICT,
        ..call(102, "validate_fit", FITTED, Answer::Given { whole: 1, floats: 0 }, valid, judged, |w| written(w, applied))
    }]
}
