//! The strata of the hole cutoff.

use super::cutoffs::{probabilities, sure};
use super::fits::{ordinary, unpacked, END};
use super::rust::{linked as side, FIT, FIT_WHOLES};
use super::Problem;
use crate::call::{own, Own};
use crate::draw::Draw;
use crate::rules;
use crate::words::float;

/// Where a fit with a budget has its budget; and floats of a fit that a stratum sets.
const BUDGET: usize = FIT;
pub const MEAN: usize = FIT_WHOLES + 3;
pub const DISPERSION: usize = FIT_WHOLES + 4;
const ALPHA: usize = FIT_WHOLES + 10;
const BETA: usize = FIT_WHOLES + 11;
const GENOME: usize = FIT_WHOLES + 13;

pub fn budget(w: &[u64]) -> f64 {
    float(w, BUDGET)
}

pub fn set(mut w: Vec<u64>, at: usize, x: f64) -> Vec<u64> {
    w[at] = x.to_bits();
    w
}

pub fn with_end(mut w: Vec<u64>, end: u64) -> Vec<u64> {
    w[END] = end;
    w
}

/// A lobe that lies inside its window.
pub fn inside(d: &mut Draw) -> Vec<u64> {
    let mean = d.octaves(1, 5);
    let end = 2 * mean as u64 + d.below(60);
    with_end(set(ordinary(d), MEAN, mean), end)
}

/// A fit, and a budget of 2^-14 to 2^-1 of its genome's k-mers.
fn budgeted(fit: fn(&mut Draw) -> Vec<u64>) -> impl Fn(&mut Draw) -> Vec<u64> {
    move |d| {
        let mut w = fit(d);
        w.push((d.octaves(-14, -2) * float(&w, GENOME)).to_bits());
        w
    }
}

pub fn ordinary_hole(d: &mut Draw) -> Vec<u64> {
    let fit = if d.one_in(2) { ordinary } else { inside };
    budgeted(fit)(d)
}

fn spent(budget: fn(&mut Draw) -> f64) -> impl Fn(&mut Draw) -> Vec<u64> {
    move |d| {
        let w = budgeted(inside)(d);
        set(w, BUDGET, budget(d))
    }
}

/// A mean at or beside 2, where the walk begins to start.
pub fn around_two(d: &mut Draw) -> Vec<u64> {
    let mean = if d.one_in(2) { d.beside(2.0, 3) } else { d.between(1.4, 2.6) };
    let end = 1 + d.below(8);
    with_end(set(ordinary(d), MEAN, mean), end)
}

/// A rounded mean at or beside the window end, halves included.
pub fn around_the_end(d: &mut Draw) -> Vec<u64> {
    let end = 2 + d.below(60);
    let near = end as f64 + d.pick(&[-1.0, -0.5, 0.0, 0.5, 1.0]);
    let mean = d.beside(near, 2);
    with_end(set(ordinary(d), MEAN, mean), end)
}

pub fn is_around_the_end(w: &[u64]) -> bool {
    (float(w, MEAN).round() - w[END] as f64).abs() <= 2.0
}

/// The allowed share is the sum through a count, or a neighbour of it.
fn at_a_sum(d: &mut Draw) -> Vec<u64> {
    let mut w = set(inside(d), GENOME, 1.0);
    let all = probabilities(&side::fit(&w)).expect("a mean of 2 or more");
    let last = d.below(all.len() as u64) as usize;
    let sum = all[1..=last].iter().fold(all[0], |sum, p| sum + p);
    w.push(d.beside(sum, 1).to_bits());
    w
}

/// Fits that unpack gives, with a peak of 5 to 40 and a window of six times that.
pub fn fitted(d: &mut Draw) -> Vec<u64> {
    let (error, genome, peak) = (d.family(), d.family(), 5 + d.below(36));
    let mut p = Problem::to(d, error, genome, 6 * peak);
    p.peak = peak;
    p.spectrum(d, 6 * peak + 1);
    side::fit_words(&side::mixture(&p).unpack(&p.theta, d.octaves(4, 24), d.below(2000)))
}

pub fn ends(of: fn(&mut Draw) -> Vec<u64>) -> Vec<Own> {
    let end = |name: &str, wanted, end: u64| own(name, wanted, move |d| with_end(of(d), end), move |w| w[END] == end);
    vec![
        end("window end 1", 20_000, 1),
        end("window end 2", 20_000, 2),
        end("refusal 5", 20_000, 0),
        own(
            "refusal 2",
            20_000,
            move |d| {
                let end = d.window_too_far();
                with_end(of(d), end)
            },
            |w| rules::window(w[END]) == Some(2),
        ),
    ]
}

pub fn holes() -> Vec<Own> {
    let answers = |w: &[u64]| rules::window(w[END]).is_none() && side::fit(w).hole_cutoff(budget(w)).is_some_and(|c| c > 2);
    let mut strata = vec![
        own("fits of unpack", 100_000, budgeted(fitted), |w| w[END] >= 30),
        own("fits of unpack in small windows", 20_000, budgeted(unpacked), |_| true),
        own("a cutoff above 2", 200_000, budgeted(inside), answers),
        own("the allowed share at a sum", 100_000, at_a_sum, |w| float(w, GENOME) == 1.0),
        own("budget 0", 20_000, spent(|d| d.sign(0.0)), |w| budget(w) == 0.0),
        own("budget negative", 20_000, spent(|d| -d.octaves(-30, 40)), |w| budget(w) < 0.0),
        own(
            "genome k-mers next to none",
            40_000,
            |d| {
                let total = if d.one_in(2) { d.subnormal() } else { d.octaves(-1022, -900) };
                set(spent(|d| d.octaves(0, 20))(d), GENOME, total)
            },
            |w| float(w, GENOME).abs() < 1e-200,
        ),
        own("mean around 2", 60_000, budgeted(around_two), |w| (float(w, MEAN) - 2.0).abs() < 0.7),
        own("mean around the window end", 60_000, budgeted(around_the_end), is_around_the_end),
        own(
            "a walk to 65,535",
            300,
            budgeted(|d| {
                let mean = d.between(60_000.0, 70_000.0);
                with_end(set(ordinary(d), MEAN, mean), 65_535)
            }),
            |w| w[END] == 65_535,
        ),
    ];
    strata.extend(ends(ordinary_hole));
    strata
}

/// A shelf of shapes that no list gives: its log gammas may lie on any side of 0.
fn wild_shelf(d: &mut Draw) -> Vec<u64> {
    let mut w = set(set(inside(d), ALPHA, d.between(-20.0, 2.0)), BETA, d.between(-20.0, 2.0));
    w[3] = 1;
    w
}

/// The strata of whether a hole is sure: those of the hole, and each way to be sure or not.
pub fn sures() -> Vec<Own> {
    let finite = |w: &[u64]| (budget(w) / float(w, GENOME)).is_finite();
    let some = move |test: fn(f64) -> bool| {
        move |w: &[u64]| finite(w) && probabilities(&side::fit(w)).is_some_and(|all| all.into_iter().any(test))
    };
    let spoilt = |at: usize, by: fn(&mut Draw) -> f64| {
        move |d: &mut Draw| {
            let w = budgeted(inside)(d);
            set(w, at, by(d))
        }
    };
    let mut strata = holes();
    strata.extend([
        own("sure", 100_000, budgeted(inside), |w| sure(&side::fit(w), budget(w))),
        own("a probability above 2", 20_000, budgeted(wild_shelf), some(|p| p > 2.0)),
        own("a probability that is a NaN", 20_000, spoilt(DISPERSION, Draw::nan), some(f64::is_nan)),
        own("an allowed share that is not finite", 20_000, spoilt(BUDGET, Draw::infinity), move |w| !finite(w)),
    ]);
    strata
}
