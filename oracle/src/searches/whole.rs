//! The strata of whole searches: from the starts, by limits cut anywhere, to the report.

use super::asked::Asked;
use super::problems::{
    either, every_start, families, flat, hopeless, made, poor, put, search, several, simulated, without_repeats, FAMILIES,
};
use super::sides::{judged, Judged};
use crate::call::{own, Own};
use crate::draw::Draw;
use crate::layer3::Problem;
use crate::rules;

/// A stratum of whole searches that get no number.
fn searched(
    name: &str,
    wanted: u64,
    draw: impl Fn(&mut Draw) -> Problem + 'static,
    change: impl Fn(&mut Draw, &mut Asked) + 'static,
    meets: impl Fn(&Asked) -> bool + 'static,
) -> Own {
    let draw = move |d: &mut Draw| {
        let p = draw(d);
        let mut a = search(d, p);
        change(d, &mut a);
        a.words()
    };
    own(name, wanted, draw, move |w| {
        let a = Asked::read(w);
        rules::first(&a.of_a_beginning()).is_none() && meets(&a)
    })
}

fn of(name: &str, wanted: u64, draw: impl Fn(&mut Draw) -> Problem + 'static) -> Own {
    searched(name, wanted, draw, |_, _| (), |_| true)
}

/// The same to the end of every run, which must be as `meets` has it.
fn ending(
    name: &str,
    wanted: u64,
    draw: impl Fn(&mut Draw) -> Problem + 'static,
    meets: impl Fn(&Asked, &Judged) -> bool + 'static,
) -> Own {
    let draw = move |d: &mut Draw| {
        let p = draw(d);
        let a = search(d, p);
        a.then(|a| a.limits.push(u64::MAX)).words()
    };
    own(name, wanted, draw, move |w| {
        let a = Asked::read(w);
        rules::first(&a.of_a_beginning()).is_none() && meets(&a, &judged(w))
    })
}

fn with_families() -> Vec<Own> {
    let mut strata = vec![];
    for (error, genome, name) in FAMILIES {
        let f = (error, genome);
        strata.push(of(&format!("{name}, a simulated spectrum and a start of the Rust's"), 250, move |d| simulated(d, f)));
        strata.push(of(&format!("{name}, a made spectrum and a drawn start"), 150, move |d| made(d, f)));
        strata.push(of(&format!("{name}, a simulated spectrum with another peak"), 60, move |d| poor(d, f)));
        strata.push(of(&format!("{name}, every start of the Rust's at once"), 5, move |d| every_start(d, f)));
    }
    strata
}

/// A start with entries put to `by`.
fn wild(by: fn(&mut Draw) -> f64) -> impl Fn(&mut Draw) -> Problem {
    move |d| {
        let f = families(d);
        let mut p = either(d, f);
        put(d, &mut p, by);
        p
    }
}

fn wild_starts() -> Vec<Own> {
    vec![
        of("starts far out, -800 to 800", 80, wild(|d| d.between(-800.0, 800.0))),
        of("starts of extreme numbers", 80, wild(Draw::extreme)),
        of("starts of any bits", 60, wild(Draw::any)),
        of("a NaN in a start", 30, wild(Draw::nan)),
        of("an infinity in a start", 30, wild(Draw::infinity)),
        of("a start so far out that 0.5 more is no more", 80, |d| {
            let f = families(d);
            let mut p = simulated(d, f);
            flat(d, &mut p);
            p
        }),
        of("no repeats: a coordinate changes no cost", 80, |d| {
            let f = families(d);
            let mut p = either(d, f);
            without_repeats(&mut p);
            p
        }),
    ]
}

fn endings() -> Vec<Own> {
    let all_infinite = |judged: &Judged| judged.runs.iter().all(|run| run.vertices.iter().all(|v| v.cost == f64::INFINITY));
    vec![
        ending(
            "infinite costs everywhere",
            40,
            |d| {
                let f = families(d);
                hopeless(d, f)
            },
            move |a, judged| all_infinite(judged) && judged.runs.iter().all(|run| run.capped(a.cap())),
        ),
        ending(
            "a window end of 1, stopped at a cost that is not above 0",
            60,
            |d| {
                let (error, genome) = families(d);
                Problem::to(d, error, genome, 1)
            },
            |_, judged| judged.runs.iter().any(|run| run.stopped && !run.converged()),
        ),
        ending(
            "converged",
            60,
            |d| {
                let f = families(d);
                simulated(d, f)
            },
            |_, judged| judged.runs.iter().all(|run| run.converged()),
        ),
        ending(
            "stopped before an iteration",
            30,
            |d| {
                let f = families(d);
                let mut p = made(d, f);
                p.theta.iter_mut().for_each(|x| *x = d.between(-0.2, 0.2));
                p.theta[0] = -600.0 - d.between(0.0, 100.0);
                without_repeats(&mut p);
                p.window_end = 1;
                p
            },
            |_, judged| judged.runs.iter().any(|run| run.stopped && run.iterations == 0),
        ),
    ]
}

fn arguments() -> Vec<Own> {
    let drawn = |d: &mut Draw| {
        let f = families(d);
        either(d, f)
    };
    let scale = |name: &str, put: fn(&mut Draw) -> f64| searched(name, 25, drawn, move |d, a| a.problem.scale = put(d), |_| true);
    let to = |end: fn(&mut Draw) -> u64| {
        move |d: &mut Draw| {
            let ((error, genome), end) = (families(d), end(d));
            Problem::to(d, error, genome, end)
        }
    };
    vec![
        scale("scale below 1", |d| d.between(-2.0, 1.0)),
        scale("scale not finite", |d| if d.one_in(2) { d.nan() } else { d.infinity() }),
        scale("scale above 1", |d| d.between(1.0, 8.0)),
        of("families of 2 to 255", 40, |d| {
            let mut byte = || 2 + d.below(254) as u8;
            let f = (byte(), byte());
            simulated(d, f)
        }),
        searched("no starts", 20, drawn, |_, a| (a.problem.theta, a.runs) = (vec![], 0), |a| a.started() == 0),
        of("two to five starts", 60, |d| {
            let (f, starts) = (families(d), 2 + d.below(4));
            let p = made(d, f);
            several(d, p, starts)
        }),
        of("window end 1", 40, to(|_| 1)),
        of("window end 2", 40, to(|_| 2)),
        searched("window end 100 to 399, a limit of 40", 40, to(|d| 100 + d.below(300)), |_, a| a.limits = vec![15, 25], |_| true),
        searched("window end 65,535, a limit of 2", 2, to(|_| 65_535), |_, a| a.limits = vec![1, 1], |_| true),
        searched("limits of 1, to the cap and past it", 6, drawn, |_, a| a.limits = vec![1; a.cap() as usize + 2], |_| true),
    ]
}

pub fn strata() -> Vec<Own> {
    [with_families(), wild_starts(), endings(), arguments()].into_iter().flatten().collect()
}
