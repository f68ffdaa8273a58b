//! The strata of attempts by their arguments: families, scale, limit, lists, window and lent table.

use super::attempt_strata::{changed, passed};
use super::RunTable;
use crate::call::{ordinary_own, Own};
use crate::draw::Draw;
use crate::rules;

fn to(d: &mut Draw, end: u64) -> RunTable {
    let (error, genome) = (d.family(), d.family());
    RunTable::to(d, error, genome, end, 3)
}

fn entries_put(d: &mut Draw, t: &mut RunTable, by: fn(&mut Draw) -> f64) {
    for x in &mut t.problem.theta {
        if d.one_in(6) {
            *x = by(d);
        }
    }
}

fn arguments() -> Vec<Own> {
    let scale = |name: &str, put: fn(&mut Draw) -> f64| {
        passed(name, 300, changed(move |d, t| t.problem.scale = put(d)), |t| rules::used(t.problem.scale) != t.problem.scale)
    };
    vec![
        scale("scale below 1", |d| d.between(-2.0, 1.0)),
        scale("scale a NaN", Draw::nan),
        scale("scale infinite", Draw::infinity),
        passed("scale above 1", 500, changed(|d, t| t.problem.scale = d.between(1.0, 8.0)), |t| t.problem.scale > 1.0),
        passed("a mass limit of exactly 1", 500, changed(|_, t| t.mass_limit = 1.0), |_| true),
        passed("a mass limit of any size", 500, changed(|d, t| t.mass_limit = d.octaves(0, 1023)), |_| true),
        passed(
            "families of 2 to 255",
            500,
            |d| {
                let (error, genome, runs) = (2 + d.below(254) as u8, 2 + d.below(254) as u8, d.below(4));
                RunTable::of(d, error, genome, runs)
            },
            |t| t.problem.error > 1 && t.problem.genome > 1,
        ),
        passed("lists of any bits", 500, changed(|d, t| entries_put(d, t, Draw::any)), |_| true),
        passed("lists of extreme numbers", 500, changed(|d, t| entries_put(d, t, Draw::extreme)), |_| true),
        passed("a NaN in a list", 500, changed(|d, t| entries_put(d, t, Draw::nan)), |t| {
            t.runs().iter().any(|run| run.converged && t.list(*run).iter().any(|x| x.is_nan()))
        }),
        passed("lists far out, -800 to 800", 500, changed(|d, t| entries_put(d, t, |d| d.between(-800.0, 800.0))), |_| true),
        passed(
            "lists that overlap, in any order, with numbers between",
            1_000,
            |d| {
                let mut t = RunTable::ordinary(d);
                let more = d.below(5) as usize;
                t.problem.theta.extend((0..more).map(|_| 0.5));
                let last = t.problem.theta.len() as u64 - t.lengths[0];
                t.places.iter_mut().for_each(|place| *place = d.below(last + 1));
                t
            },
            |t| t.runs().len() > 1,
        ),
        passed("window end 1", 300, |d| to(d, 1), |t| t.problem.window_end == 1),
        passed("window end 2", 300, |d| to(d, 2), |t| t.problem.window_end == 2),
        passed(
            "window end 100 to 1,999",
            60,
            |d| {
                let end = 100 + d.below(1900);
                to(d, end)
            },
            |t| t.problem.window_end >= 100,
        )
        .long(),
        passed("window end 65,535", 3, |d| to(d, 65_535), |t| t.problem.window_end == 65_535).long(),
        passed(
            "valley or peak of 65,535",
            300,
            changed(|d, t| {
                t.valley = d.pick(&[t.valley, 65_535]);
                t.problem.peak = d.pick(&[t.problem.peak, 65_535]);
            }),
            |t| t.valley == 65_535 || t.problem.peak == 65_535,
        ),
        passed(
            "a table that just holds the shelf's",
            500,
            |d| {
                let (error, runs) = (d.family(), 1 + d.below(3));
                RunTable::of(d, error, 1, runs).then(|t| t.problem.table.resize(t.problem.window_end as usize + 1, 0.5))
            },
            |t| t.problem.table.len() as u64 == t.problem.window_end + 1,
        ),
        passed(
            "a longer table, what lies behind kept",
            500,
            |d| {
                let (error, runs, more) = (d.family(), 1 + d.below(3), 2 + d.below(9) as usize);
                RunTable::of(d, error, 1, runs).then(|t| t.problem.table.resize_with(t.problem.window_end as usize + more, || d.any()))
            },
            |t| t.problem.table.len() as u64 > t.problem.window_end + 1,
        ),
        passed(
            "no shelf, any table",
            500,
            |d| {
                let (error, runs) = (d.family(), 1 + d.below(3));
                RunTable::of(d, error, 0, runs).then(|t| t.problem.table.truncate(d.below(9) as usize))
            },
            |t| !t.problem.with_shelf(),
        ),
        passed(
            "30 to 300 runs",
            60,
            |d| {
                let (error, genome, runs) = (d.family(), d.family(), 30 + d.below(270));
                RunTable::of(d, error, genome, runs)
            },
            |t| t.runs().len() >= 30,
        )
        .long(),
    ]
}

fn families() -> Vec<Own> {
    [(0, 0, "Weibull"), (0, 1, "Weibull with shelf"), (1, 0, "Pareto"), (1, 1, "Pareto with shelf")]
        .map(|(error, genome, name)| {
            let draw = move |d: &mut Draw| {
                let runs = 1 + d.below(6);
                RunTable::of(d, error, genome, runs).words()
            };
            ordinary_own(name, 1_500, draw, move |w| RunTable::read(w).refusal().is_none())
        })
        .into_iter()
        .collect()
}

pub fn strata() -> Vec<Own> {
    [families(), arguments()].into_iter().flatten().collect()
}
