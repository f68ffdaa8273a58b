//! The strata of reports.

use super::problems::{families, FAMILIES};
use super::reported::Reported;
use crate::call::{own, Own};
use crate::draw::Draw;

fn of(name: &str, wanted: u64, draw: impl Fn(&mut Draw) -> Reported + 'static, meets: impl Fn(&Reported) -> bool + 'static) -> Own {
    own(name, wanted, move |d| draw(d).words(), move |w| meets(&Reported::read(w)))
}

/// One to four runs.
fn drawn(d: &mut Draw) -> Reported {
    let ((error, genome), runs) = (families(d), 1 + d.below(4));
    Reported::drawn(d, error, genome, runs)
}

pub fn ordinary(d: &mut Draw) -> Vec<u64> {
    drawn(d).words()
}

/// The costs of every run put to `by`.
fn costs(name: &str, by: fn(&mut Draw) -> f64) -> Own {
    let draw = move |d: &mut Draw| {
        let mut r = drawn(d);
        let width = r.width();
        r.simplexes.chunks_exact_mut(width).for_each(|row| row[0] = by(d));
        r
    };
    of(name, 500, draw, |r| r.refuses(&[]))
}

fn runs() -> Vec<Own> {
    let iterations = |name: &str, by: fn(&mut Draw, u64) -> u64| {
        let draw = move |d: &mut Draw| {
            let mut r = drawn(d);
            let cap = r.cap();
            r.iterations.iter_mut().for_each(|n| *n = by(d, cap));
            r
        };
        of(name, 300, draw, |r| r.refuses(&[]))
    };
    vec![
        costs("costs of one value", |_| 5.0),
        costs("costs of a few values", |d| d.pick(&[7.0, 8.0, 9.0])),
        costs("zeros of both signs", |d| d.sign(0.0)),
        costs("zeros of both signs, and more", |d| d.pick(&[0.0, -0.0, 1.0])),
        costs("costs infinite", |_| f64::INFINITY),
        costs("costs infinite or not", |d| d.pick(&[f64::INFINITY, 3.0])),
        costs("costs below 0", |d| -d.octaves(-3, 9)),
        costs("subnormal costs", |d| d.subnormal().abs()),
        costs("costs of any bits but a NaN", |d| Some(d.any()).filter(|x| !x.is_nan()).unwrap_or(1.0)),
        of(
            "stopped, by a byte of 2 to 255",
            300,
            |d| {
                let mut r = drawn(d);
                r.stopped.iter_mut().for_each(|byte| *byte = 2 + d.below(254) as u8);
                r
            },
            |r| r.stopped.iter().all(|&byte| byte > 1),
        ),
        iterations("one below the cap", |_, cap| cap - 1),
        iterations("at the cap", |_, cap| cap),
        iterations("at the other families' cap", |_, cap| 3_000 - cap),
        iterations("past the cap", |d, cap| if d.one_in(2) { cap + 1 + d.below(9) } else { u64::MAX - d.below(9) }),
        of(
            "no runs",
            300,
            |d| {
                let (error, genome) = families(d);
                Reported::drawn(d, error, genome, 0)
            },
            |r| r.runs == 0,
        ),
        of(
            "fewer runs than the slices hold",
            300,
            |d| {
                let mut r = drawn(d);
                r.runs -= 1;
                r
            },
            |r| r.refuses(&[]),
        ),
        of(
            "longer slices",
            500,
            |d| {
                let mut r = drawn(d);
                r.longer(d);
                r
            },
            |r| r.refuses(&[]),
        ),
        of(
            "families of 2 to 255",
            300,
            |d| {
                let (error, genome, runs) = (2 + d.below(254) as u8, 2 + d.below(254) as u8, 1 + d.below(4));
                Reported::drawn(d, error, genome, runs)
            },
            |r| r.refuses(&[]),
        ),
        of(
            "65,535 runs",
            1,
            |d| {
                let (error, genome) = families(d);
                Reported::drawn(d, error, genome, 65_535)
            },
            |r| r.refuses(&[]),
        ),
    ]
}

fn refusals() -> Vec<Own> {
    const NAMES: [&str; 8] = ["simplexes", "costs", "iterations", "places", "lengths", "stopped", "converged", "caps"];
    let mut strata = vec![];
    for (slice, name) in NAMES.iter().enumerate() {
        strata.push(of(
            &format!("refusal 10, {name} too short"),
            200,
            move |d| {
                let mut r = drawn(d);
                let most = r.rooms()[slice].0;
                r.cut(slice, if d.one_in(2) { most - 1 } else { d.below(most as u64) as usize });
                r
            },
            |r| r.refuses(&[10]),
        ));
    }
    strata.push(of(
        "refusals 2 and 10",
        300,
        |d| {
            let mut r = drawn(d);
            r.runs = d.window_too_far();
            r
        },
        |r| r.refuses(&[2, 10]),
    ));
    strata.push(of("refusal 2 alone, 65,536 runs", 1, |d| Reported::drawn(d, 1, 0, 65_536), |r| r.refuses(&[2])));
    strata
}

fn with_families() -> Vec<Own> {
    let one = |(error, genome, name): (u8, u8, &str)| {
        let draw = move |d: &mut Draw| {
            let runs = 1 + d.below(4);
            Reported::drawn(d, error, genome, runs)
        };
        of(name, 1_000, draw, |r| r.refuses(&[]))
    };
    FAMILIES.into_iter().map(one).collect()
}

pub fn strata() -> Vec<Own> {
    [with_families(), runs(), refusals()].into_iter().flatten().collect()
}
