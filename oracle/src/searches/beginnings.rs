//! The strata of beginnings: a first simplex for each start.

use super::asked::Asked;
use super::problems::{either, families, flat, hopeless, made, put, several, simulated, without_repeats, FAMILIES};
use super::turns::just;
use crate::call::{own, Own};
use crate::draw::Draw;
use crate::layer3::Problem;
use crate::rules;

fn of(name: &str, wanted: u64, draw: impl Fn(&mut Draw) -> Problem + 'static) -> Own {
    changed(name, wanted, draw, |_, _| ())
}

/// Of starts that get no number.
fn changed(
    name: &str,
    wanted: u64,
    draw: impl Fn(&mut Draw) -> Problem + 'static,
    change: impl Fn(&mut Draw, &mut Asked) + 'static,
) -> Own {
    let draw = move |d: &mut Draw| {
        let p = draw(d);
        Asked::from_starts(d, p).then(|a| change(d, a)).words()
    };
    own(name, wanted, draw, |w| rules::first(&Asked::read(w).of_a_beginning()).is_none())
}

fn drawn(d: &mut Draw) -> Problem {
    let (f, starts) = (families(d), 1 + d.below(3));
    let p = either(d, f);
    several(d, p, starts)
}

pub fn ordinary(d: &mut Draw) -> Vec<u64> {
    let p = drawn(d);
    Asked::from_starts(d, p).words()
}

fn starts() -> Vec<Own> {
    let wild = |name: &str, by: fn(&mut Draw) -> f64| {
        of(name, 150, move |d| {
            let mut p = drawn(d);
            put(d, &mut p, by);
            p
        })
    };
    vec![
        wild("starts far out, -800 to 800", |d| d.between(-800.0, 800.0)),
        wild("starts of extreme numbers", Draw::extreme),
        wild("starts of any bits", Draw::any),
        wild("a NaN in a start", Draw::nan),
        wild("an infinity in a start", Draw::infinity),
        wild("starts beside -0.5", |d| -d.beside(0.5, 3)),
        of("a start so far out that 0.5 more is no more", 100, |d| {
            let f = families(d);
            let mut p = simulated(d, f);
            flat(d, &mut p);
            p
        }),
        of("no repeats: a coordinate changes no cost", 100, |d| {
            let f = families(d);
            let mut p = made(d, f);
            without_repeats(&mut p);
            p
        }),
        of("infinite costs everywhere", 100, |d| {
            let f = families(d);
            hopeless(d, f)
        }),
        changed("no starts", 50, drawn, |_, a| (a.problem.theta, a.runs) = (vec![], 0)),
        of("30 to 300 starts", 10, |d| {
            let (f, starts) = (families(d), 30 + d.below(271));
            let p = made(d, f);
            several(d, p, starts)
        }),
    ]
}

fn arguments() -> Vec<Own> {
    let to = |end: fn(&mut Draw) -> u64| {
        move |d: &mut Draw| {
            let ((error, genome), end) = (families(d), end(d));
            Problem::to(d, error, genome, end)
        }
    };
    let mut strata = vec![
        changed("scale below 1", 60, drawn, |d, a| a.problem.scale = d.between(-2.0, 1.0)),
        changed("scale not finite", 60, drawn, |d, a| a.problem.scale = if d.one_in(2) { d.nan() } else { d.infinity() }),
        changed("scale above 1", 60, drawn, |d, a| a.problem.scale = d.between(1.0, 8.0)),
        of("families of 2 to 255", 100, |d| {
            let mut byte = || 2 + d.below(254) as u8;
            let f = (byte(), byte());
            made(d, f)
        }),
        of("window end 1", 60, to(|_| 1)),
        of("window end 2", 60, to(|_| 2)),
        of("window end 100 to 1,999", 20, to(|d| 100 + d.below(1900))),
        of("window end 65,535", 2, to(|_| 65_535)),
        changed("slices that just hold the runs", 100, drawn, |_, a| just(a)),
        changed(
            "no shelf, any table",
            60,
            |d| {
                let error = d.family();
                made(d, (error, 0))
            },
            |d, a| a.problem.table.truncate(d.below(9) as usize),
        ),
    ];
    for (error, genome, name) in FAMILIES {
        strata.push(of(name, 150, move |d| either(d, (error, genome))));
    }
    strata
}

pub fn strata() -> Vec<Own> {
    [starts(), arguments()].into_iter().flatten().collect()
}
