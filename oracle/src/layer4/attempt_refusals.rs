//! The strata of attempts that a number comes back from, and of columns of unequal length.

use super::attempt_strata::{bad_cost, outside, over, wrong_length};
use super::{Run, RunTable};
use crate::call::Own;
use crate::draw::Draw;
use crate::rules;

const NUMBERS: [u64; 8] = [1, 2, 4, 5, 6, 7, 9, 10];

fn applies(t: &RunTable, number: u64) -> bool {
    rules::of_an_attempt(t).contains(&(number, true))
}

/// Changes it so that a number of document 01 applies.
fn refuse(d: &mut Draw, t: &mut RunTable, number: u64) {
    match number {
        1 if d.one_in(3) => t.valley = d.below(2),
        2 if d.one_in(3) => t.valley = d.window_too_far(),
        7 => {
            let i = t.one(d);
            let spoilt = if d.one_in(2) { wrong_length(d, t.run(i)) } else { outside(d, t, t.run(i)) };
            t.put(i, spoilt);
        }
        9 if d.one_in(3) => t.mass_limit = bad_limit(d),
        9 => {
            let i = t.one(d);
            t.costs[i] = bad_cost(d);
        }
        _ => t.problem.refused(d, number),
    }
}

fn bad_limit(d: &mut Draw) -> f64 {
    match d.below(4) {
        0 => d.nan(),
        1 => d.infinity(),
        2 => 1.0 - f64::EPSILON / 2.0,
        _ => d.between(-3.0, 1.0),
    }
}

/// One run at least; with a shelf where 10 is to apply.
fn refused(numbers: &'static [u64]) -> impl Fn(&mut Draw) -> RunTable {
    move |d| {
        let (error, genome, runs) = (d.family(), d.family() | u8::from(numbers.contains(&10)), 1 + d.below(3));
        let mut t = RunTable::of(d, error, genome, runs);
        numbers.iter().rev().for_each(|&number| refuse(d, &mut t, number));
        t
    }
}

fn numbers() -> Vec<Own> {
    let mut strata = vec![];
    for a in &NUMBERS {
        let name = format!("refusal {a}");
        strata.push(over(&name, 300, refused(std::slice::from_ref(a)), move |t| t.refusal() == Some(*a)));
    }
    strata
}

/// Each pair that applies together: the lower is the answer.
fn pairs() -> Vec<Own> {
    let mut strata = vec![];
    for (i, &a) in NUMBERS.iter().enumerate() {
        for &b in &NUMBERS[i + 1..] {
            let both: &'static [u64] = Box::leak(Box::new([a, b]));
            strata.push(over(&format!("refusals {a} and {b}"), 150, refused(both), move |t| t.refusal() == Some(a) && applies(t, b)));
        }
    }
    strata
}

/// A table with one thing changed, for which a number comes back.
fn spoilt(name: &str, number: u64, spoil: impl Fn(&mut Draw, &mut RunTable) + 'static) -> Own {
    let draw = move |d: &mut Draw| {
        let mut t = RunTable::ordinary(d);
        spoil(d, &mut t);
        t
    };
    over(&format!("refusal {number}, {name}"), 200, draw, move |t| t.refusal() == Some(number))
}

fn with_cost(name: &str, cost: fn(&mut Draw) -> f64) -> Own {
    spoilt(&format!("a converged run's cost {name}"), 9, move |d, t| {
        let i = t.one(d);
        t.costs[i] = cost(d);
    })
}

fn with_limit(name: &str, limit: fn(&mut Draw) -> f64) -> Own {
    spoilt(&format!("a mass limit {name}"), 9, move |d, t| t.mass_limit = limit(d))
}

fn with_run(name: &str, spoil: fn(&mut Draw, &RunTable, Run) -> Run) -> Own {
    spoilt(name, 7, move |d, t| {
        let i = t.one(d);
        let run = spoil(d, t, t.run(i));
        t.put(i, run);
    })
}

fn single() -> Vec<Own> {
    vec![
        spoilt("the peak", 1, |d, t| t.problem.peak = d.below(2)),
        spoilt("the valley", 1, |d, t| t.valley = d.below(2)),
        spoilt("the bins", 1, |d, t| t.problem.bins.truncate(d.below(2) as usize)),
        spoilt("the peak", 2, |d, t| t.problem.peak = d.window_too_far()),
        spoilt("the valley", 2, |d, t| t.valley = d.window_too_far()),
        spoilt("the window end", 2, |d, t| t.problem.window_end = d.window_too_far()),
        spoilt("a window end of 0", 5, |_, t| t.problem.window_end = 0),
        spoilt("a window end one past the bins", 5, |_, t| t.problem.window_end = t.problem.bins.len() as u64 + 1),
        with_run("a list one longer", |_, _, run| Run { length: run.length + 1, ..run }),
        with_run("a list one shorter", |_, _, run| Run { length: run.length - 1, ..run }),
        with_run("a list of no numbers", |_, _, run| Run { length: 0, ..run }),
        with_run("a list of any wrong length", |d, _, run| wrong_length(d, run)),
        with_run("a list that ends one past the numbers", |_, t, run| Run { place: t.problem.theta.len() as u64 - run.length + 1, ..run }),
        with_run("a list outside the numbers", outside),
        with_run("a list whose end wraps", |d, _, run| Run { place: u64::MAX - d.below(run.length), ..run }),
        spoilt("no numbers at all", 7, |d, t| {
            t.one(d);
            t.problem.theta.clear();
        }),
        with_cost("a NaN", Draw::nan),
        with_cost("infinite", Draw::infinity),
        with_cost("0", |_| 0.0),
        with_cost("-0", |_| -0.0),
        with_cost("below 0", |d| -d.octaves(-1022, 1023)),
        with_cost("a subnormal below 0", |d| -d.subnormal().abs()),
        with_limit("a NaN", Draw::nan),
        with_limit("infinite", Draw::infinity),
        with_limit("just below 1", |_| 1.0 - f64::EPSILON / 2.0),
        with_limit("below 1", |d| d.between(-3.0, 1.0)),
        spoilt("a table one short", 10, |_, t| {
            t.problem.table.truncate(t.problem.window_end as usize);
        }),
    ]
}

/// 9 of one run and 7 of another, by their places in the table.
fn both_orders() -> Vec<Own> {
    let at = |t: &RunTable, spoilt: fn(&RunTable, Run) -> bool| t.runs().iter().position(|run| run.converged && spoilt(t, *run));
    let long = |t: &RunTable, run: Run| run.length > 11 || run.place > t.problem.theta.len() as u64;
    let costly = |_: &RunTable, run: Run| run.cost.is_nan() || run.cost <= 0.0;
    [(true, "9 first by place"), (false, "7 first by place")]
        .map(|(nine_first, name)| {
            let draw = move |d: &mut Draw| {
                let (error, genome, runs) = (d.family(), d.family(), 2 + d.below(2));
                let mut t = RunTable::of(d, error, genome, runs);
                let later = 1 + d.below(runs - 1) as usize;
                let earlier = d.below(later as u64) as usize;
                let (nine, seven) = if nine_first { (earlier, later) } else { (later, earlier) };
                (t.converged[nine], t.converged[seven]) = (1, 1);
                t.costs[nine] = d.pick(&[f64::NAN, 0.0, -1.0]);
                t.lengths[seven] = d.pick(&[12, 100]);
                t
            };
            over(&format!("refusals 7 and 9, {name}"), 500, draw, move |t| {
                let (nine, seven) = (at(t, costly), at(t, long));
                t.refusal() == Some(7) && nine.is_some() && seven.is_some() && (nine < seven) == nine_first
            })
        })
        .into_iter()
        .collect()
}

// ---- tables of many runs or bins

/// So many runs, of which hardly any converged, with lists that they share.
fn many(d: &mut Draw, runs: usize) -> RunTable {
    let (error, genome) = (d.family(), d.family());
    let mut t = RunTable::of(d, error, genome, 2);
    let lists = [t.run(0), t.run(1)];
    while t.costs.len() < runs {
        let run = Run { converged: d.one_in(20_000), cost: d.octaves(4, 12), iterations: d.below(2000), ..d.pick(&lists) };
        t.push_row(Run { capped: d.one_in(5), ..run });
    }
    t
}

fn long() -> Vec<Own> {
    vec![
        over("65,535 runs", 20, |d| many(d, 65_535), |t| t.refusal().is_none() && t.runs().len() == 65_535).long(),
        over(
            "refusal 2, 65,536 runs and more",
            20,
            |d| {
                let runs = 65_536 + d.below(3) as usize;
                many(d, runs)
            },
            |t| t.refusal() == Some(2) && t.runs().len() > 65_535,
        )
        .long(),
        over(
            "refusal 2, 65,536 bins and more",
            50,
            |d| RunTable::ordinary(d).then(|t| t.problem.bins.resize(65_536 + d.below(3) as usize, 1)),
            |t| t.refusal() == Some(2) && t.problem.bins.len() > 65_535,
        )
        .long(),
    ]
}

pub fn refusals() -> Vec<Own> {
    [numbers(), pairs(), single(), both_orders(), long()].into_iter().flatten().collect()
}

// ---- columns

/// What a reader of a run too many would find: a converged run of little cost, capped, whose list has the wrong length half the time.
fn past_the_end(d: &mut Draw, t: &RunTable) -> Run {
    let length = if d.one_in(2) { t.lengths.first().copied().unwrap_or(7) } else { 3 };
    Run { converged: true, cost: d.pick(&[1e-9, f64::NAN, -1.0]), place: 0, length, iterations: 1 + d.word() / 2, capped: true }
}

fn cut(t: &mut RunTable, column: usize, to: usize) {
    match column {
        0 => t.converged.truncate(to),
        1 => t.costs.truncate(to),
        2 => t.places.truncate(to),
        3 => t.lengths.truncate(to),
        4 => t.iterations.truncate(to),
        _ => t.caps.truncate(to),
    }
}

const COLUMNS: [&str; 6] = ["flags", "costs", "places", "lengths", "iterations", "caps"];

/// Columns of unequal length: the shortest counts.
pub fn unequal() -> Vec<Own> {
    let shortest = |t: &RunTable, column: usize| {
        let columns = t.columns();
        (0..6).all(|other| other == column || columns[other] > columns[column])
    };
    let mut strata: Vec<Own> = (0..6)
        .map(|column| {
            let draw = move |d: &mut Draw| {
                let (error, genome, runs) = (d.family(), d.family(), d.below(3));
                let mut t = RunTable::of(d, error, genome, runs);
                for _ in 0..1 + d.below(2) {
                    let run = past_the_end(d, &t);
                    t.push_row(run);
                }
                cut(&mut t, column, runs as usize);
                t
            };
            over(&format!("the {} shortest", COLUMNS[column]), 400, draw, move |t| t.refusal().is_none() && shortest(t, column))
        })
        .collect();
    strata.push(over(
        "columns of any lengths",
        500,
        |d| {
            let mut t = RunTable::ordinary(d);
            (0..6).for_each(|column| cut(&mut t, column, d.below(7) as usize));
            t
        },
        |t| t.refusal().is_none() && t.columns().iter().any(|&n| n != t.columns()[0]),
    ));
    strata.push(
        over(
            "65,536 entries in a column, 65,535 in another",
            20,
            |d| many(d, 65_536).then(|t| cut(t, d.below(6) as usize, 65_535)),
            |t| t.refusal().is_none() && t.runs().len() == 65_535,
        )
        .long(),
    );
    strata
}
