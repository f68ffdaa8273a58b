//! The strata of attempts that get no number: which run is kept, and why.

use super::validator::{first, linked::rules as apply};
use super::{Run, RunTable};
use crate::call::{own, Own};
use crate::draw::Draw;
use crate::layer3::rust::linked::mixture;

/// A converged run by its place in the table, with its cost and the first rule against it, or 0.
struct Judged {
    cost: f64,
    rule: u64,
}

/// The converged runs in the order of their costs, the earlier of equals first. Nothing is refused.
fn ranked(t: &RunTable) -> Vec<Judged> {
    let problem = mixture(&t.problem);
    let judge = |run: Run| {
        let fit = problem.unpack(t.list(run), run.cost, run.iterations);
        Judged { cost: run.cost, rule: first(apply(&fit, t.valley, t.problem.peak, t.mass_limit)) }
    };
    let mut ranked: Vec<Judged> = t.runs().into_iter().filter(|run| run.converged).map(judge).collect();
    ranked.sort_by(|a, b| a.cost.total_cmp(&b.cost));
    ranked
}

pub fn over(name: &str, wanted: u64, draw: impl Fn(&mut Draw) -> RunTable + 'static, meets: impl Fn(&RunTable) -> bool + 'static) -> Own {
    own(name, wanted, move |d| draw(d).words(), move |w| meets(&RunTable::read(w)))
}

/// Not refused.
pub fn passed(name: &str, wanted: u64, draw: impl Fn(&mut Draw) -> RunTable + 'static, meets: impl Fn(&RunTable) -> bool + 'static) -> Own {
    over(name, wanted, draw, move |t| t.refusal().is_none() && meets(t))
}

/// Ordinary runs, changed.
pub fn changed(change: impl Fn(&mut Draw, &mut RunTable) + 'static) -> impl Fn(&mut Draw) -> RunTable + 'static {
    move |d| {
        let mut t = RunTable::ordinary(d);
        change(d, &mut t);
        t
    }
}

// ---- which run is kept

/// Dispersions for which a list is always rejected, in some of the lists.
fn some_rejected(d: &mut Draw) -> RunTable {
    let (error, genome, runs) = (d.family(), d.family(), 2 + d.below(4));
    let mut t = RunTable::of(d, error, genome, runs);
    for run in t.runs() {
        if d.one_in(2) {
            t.problem.theta[run.place as usize + 3] = d.between(37.5, 42.0);
        }
    }
    t
}

/// By any of the rules.
fn all_rejected(d: &mut Draw) -> RunTable {
    let rule = 1 + d.below(8);
    let runs = 2 + d.below(2);
    turned_away(d, rule, runs)
}

/// Costs of two values, or of one.
fn level(of: fn(&mut Draw) -> RunTable) -> impl Fn(&mut Draw) -> RunTable {
    move |d| {
        let mut t = of(d);
        let costs = [d.octaves(4, 12), d.octaves(4, 12)];
        let one = !d.one_in(4);
        t.costs.iter_mut().for_each(|cost| *cost = if one { costs[0] } else { d.pick(&costs) });
        t
    }
}

/// Totals beyond the limit, and some shelves that are none.
fn two_reasons(d: &mut Draw) -> RunTable {
    let (error, runs) = (d.family(), 2 + d.below(3));
    let mut t = RunTable::of(d, error, 1, runs);
    let share = t.problem.base() + 1;
    t.costs.fill(d.octaves(4, 12));
    t.mass_limit = 1.0;
    for run in t.runs() {
        if d.one_in(2) {
            t.problem.theta[run.place as usize + share] = d.sign(900.0);
        }
    }
    t
}

/// The rules against the runs that cost as much as the first with this verdict: those of the tie that decides.
fn tied(t: &RunTable, decides: fn(&Judged) -> bool) -> Vec<u64> {
    let ranked = ranked(t);
    let cost = ranked.iter().find(|run| decides(run)).map(|run| run.cost);
    ranked.iter().filter(|run| Some(run.cost) == cost).map(|run| run.rule).collect()
}

fn kept() -> Vec<Own> {
    let valid = |run: &Judged| run.rule == 0;
    vec![
        passed("the least run valid", 2_000, RunTable::ordinary, move |t| ranked(t).first().is_some_and(valid)).measured(),
        passed("the least rejected, a later one valid", 2_000, some_rejected, move |t| {
            let ranked = ranked(t);
            ranked.first().is_some_and(|run| run.rule > 0) && ranked.iter().any(valid)
        })
        .measured(),
        passed("all rejected", 1_000, all_rejected, move |t| {
            let ranked = ranked(t);
            !ranked.is_empty() && !ranked.iter().any(valid)
        }),
        passed("a tie of valid runs", 1_000, level(RunTable::ordinary), move |t| {
            tied(t, |run| run.rule == 0).iter().filter(|&&rule| rule == 0).count() > 1
        }),
        passed("a tie of a rejected run and a later valid one", 1_000, level(some_rejected), move |t| {
            let tied = tied(t, |run| run.rule == 0);
            tied.len() > 1 && tied[0] > 0
        }),
        passed("a tie of rejected runs, none valid", 1_000, level(all_rejected), move |t| {
            !ranked(t).iter().any(valid) && tied(t, |run| run.rule > 0).len() > 1
        }),
        passed("a tie of runs rejected for two reasons, none valid", 500, two_reasons, move |t| {
            let tied = tied(t, |run| run.rule > 0);
            !ranked(t).iter().any(valid) && tied.iter().any(|&rule| rule != tied[0])
        }),
        passed("none converged", 1_000, changed(|_, t| t.converged.fill(0)), |t| !t.runs().is_empty() && ranked(t).is_empty()),
        passed(
            "no runs",
            500,
            |d| {
                let (error, genome) = (d.family(), d.family());
                RunTable::of(d, error, genome, 0)
            },
            |t| t.runs().is_empty(),
        ),
        passed(
            "costs next to each other",
            1_000,
            changed(|d, t| {
                let base = d.octaves(4, 12);
                t.costs.iter_mut().for_each(|cost| *cost = d.beside(base, 1));
            }),
            |t| ranked(t).len() > 1,
        ),
        passed("costs of every size", 1_000, changed(|d, t| t.costs.iter_mut().for_each(|cost| *cost = d.octaves(-1022, 1023))), |t| {
            ranked(t).len() > 1
        }),
        passed("subnormal costs", 300, changed(|d, t| t.costs.iter_mut().for_each(|cost| *cost = d.subnormal().abs())), |t| {
            ranked(t).len() > 1
        }),
    ]
}

// ---- each reason of the lowest run, with none valid

/// Changes the lists, or what they are judged by, so that a rule is the first against every run. A list has a mode in the band and a repeat
/// lobe at 1.5 times the mean or more, and a cost is above 0: so the band is left by rounding alone, and rules 9 and 10 never apply.
fn turn_away(d: &mut Draw, t: &mut RunTable, rule: u64) {
    match rule {
        1 => t.costs.iter_mut().for_each(|cost| *cost = d.between(0.9e308, 1.79e308)),
        2 => {
            let share = t.problem.base() + 1;
            t.put_entry(share, || d.sign(900.0));
        }
        3 => {
            t.problem.peak = 12 + d.below(4);
            t.put_entry(3, || d.between(-20.5, -17.0));
        }
        4 => t.mass_limit = 1.0,
        5 => {
            t.mass_limit = d.octaves(200, 1000);
            t.put_entry(3, || d.between(37.5, 42.0));
        }
        6 => {
            t.mass_limit = d.octaves(200, 1000);
            t.problem.peak = t.problem.window_end * 3 / 2 + 2 + d.below(9);
        }
        7 => {
            t.valley = 2;
            t.put_entry(4, || d.between(-5.0, -3.0));
            t.put_entry(5, || d.between(-40.0, -20.0));
            t.put_entry(6, || d.between(0.8, 1.4));
        }
        _ => {
            (t.problem.peak, t.mass_limit) = (3, d.octaves(200, 1000));
            t.put_entry(2, || d.between(4.0, 9.0));
            t.put_entry(3, || d.between(35.0, 36.7));
        }
    }
}

/// Rule 3 takes a window that holds a whole lobe.
fn turned_away(d: &mut Draw, rule: u64, runs: u64) -> RunTable {
    let (error, genome) = (if rule == 7 { 0 } else { d.family() }, u8::from(rule == 2) | d.family());
    let window_end = if rule == 3 { 40 + d.below(20) } else { d.window() };
    RunTable::to(d, error, genome, window_end, runs).then(|t| turn_away(d, t, rule))
}

fn reasons() -> Vec<Own> {
    (1..=8)
        .map(|rule: u64| {
            let draw = move |d: &mut Draw| {
                let runs = 1 + d.below(2);
                turned_away(d, rule, runs)
            };
            passed(&format!("all rejected, the least by rule {rule}"), 500, draw, move |t| {
                let ranked = ranked(t);
                ranked.first().is_some_and(|run| run.rule == rule) && ranked.iter().all(|run| run.rule > 0)
            })
        })
        .collect()
}

// ---- the totals

fn totals() -> Vec<Own> {
    let sum = |t: &RunTable| t.runs().iter().map(|run| u128::from(run.iterations)).sum::<u128>();
    let most = u128::from(u64::MAX);
    vec![
        passed(
            "iterations beyond 2^64 - 1",
            1_000,
            changed(|d, t| t.iterations.iter_mut().for_each(|n| *n = u64::MAX - d.word() / 4)),
            move |t| sum(t) > most,
        ),
        passed(
            "iterations of 2^64 - 1 in all, or one beside it",
            500,
            changed(|d, t| {
                let first = 1 + d.word() / 2;
                t.iterations.fill(0);
                t.iterations[0] = first;
                if t.iterations.len() > 1 {
                    *t.iterations.last_mut().expect("a run") = u64::MAX - first - 1 + d.below(3);
                }
            }),
            move |t| sum(t).abs_diff(most) <= 1,
        ),
        passed("iterations of any size", 500, changed(|d, t| t.iterations.iter_mut().for_each(|n| *n = d.word() >> d.below(64))), |_| true),
        passed(
            "capped runs, converged and not",
            1_000,
            changed(|d, t| t.caps.iter_mut().for_each(|cap| *cap = (!d.one_in(4)).into())),
            |t| {
                let capped = |converged: bool| t.runs().iter().any(|run| run.capped && run.converged == converged);
                capped(true) && capped(false)
            },
        ),
    ]
}

// ---- a flag's bytes

/// Every yes is a byte of 2 to 255.
fn bytes() -> Vec<Own> {
    let other = |d: &mut Draw, flag: &mut u8| *flag = if *flag == 0 { 0 } else { 2 + d.below(254) as u8 };
    let draw = changed(move |d, t| {
        t.converged.iter_mut().for_each(|flag| other(d, flag));
        t.caps.iter_mut().for_each(|flag| other(d, flag));
    });
    vec![passed("converged and capped, by bytes of 2 to 255", 1_000, draw, |t| {
        let some = |flags: &[u8]| flags.iter().any(|&flag| flag != 0);
        some(&t.converged) && some(&t.caps) && t.converged.iter().chain(&t.caps).all(|&flag| flag != 1)
    })]
}

// ---- what a run that did not converge may have

/// Spoils one run, which did not converge.
fn passed_over(name: &str, wanted: u64, spoil: fn(&mut Draw, &RunTable, Run) -> Run) -> Own {
    let draw = move |d: &mut Draw| {
        let mut t = RunTable::ordinary(d);
        let i = t.one(d);
        let spoilt = Run { converged: false, ..spoil(d, &t, t.run(i)) };
        t.put(i, spoilt);
        t
    };
    over(name, wanted, draw, |t| {
        let converged = t.clone().then(|t| t.converged.fill(1));
        t.refusal().is_none() && matches!(converged.refusal(), Some(7 | 9))
    })
}

pub fn bad_cost(d: &mut Draw) -> f64 {
    match d.below(5) {
        0 => d.nan(),
        1 => d.infinity(),
        2 => d.sign(0.0),
        3 => -d.subnormal().abs(),
        _ => -d.octaves(-30, 30),
    }
}

/// Outside the lent numbers by one, by more, or by so much that the place and the length wrap.
pub fn outside(d: &mut Draw, t: &RunTable, run: Run) -> Run {
    let held = t.problem.theta.len() as u64;
    let place = match d.below(4) {
        0 => held - run.length + 1,
        1 => held + d.below(9),
        2 => u64::MAX - d.below(run.length + 2),
        _ => held + d.word() % (u64::MAX - held),
    };
    Run { place, ..run }
}

/// One off, or any other.
pub fn wrong_length(d: &mut Draw, run: Run) -> Run {
    let length = match d.below(4) {
        0 => run.length + 1,
        1 => run.length - 1,
        2 => (run.length + 1 + d.below(14)) % 15,
        _ => d.window_too_far(),
    };
    Run { length, ..run }
}

fn ignored() -> Vec<Own> {
    vec![
        passed_over("not converged, with a bad cost", 1_000, |d, _, run| Run { cost: bad_cost(d), ..run }),
        passed_over("not converged, with a list of the wrong length", 1_000, |d, _, run| wrong_length(d, run)),
        passed_over("not converged, with a list outside", 1_000, outside),
    ]
}

pub fn strata() -> Vec<Own> {
    [kept(), reasons(), totals(), ignored(), bytes()].into_iter().flatten().collect()
}
