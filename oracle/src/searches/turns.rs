//! The strata of runs that go on: states in the middle of a search, ties, each move of the rule, the test's bound and the cap.

use super::asked::Asked;
use super::problems::{either, families, made, several, simulated, without_repeats, FAMILIES};
use super::sides::linked_cost;
use crate::call::{own, Own};
use crate::draw::Draw;
use crate::layer3::Problem;
use crate::rules;
use crate::simplex::{Move, State, Vertex};

/// One to three runs, each some turns behind its first simplex.
fn running(d: &mut Draw, p: Problem, runs: u64) -> Asked {
    let p = several(d, p, runs);
    let mut a = Asked::from_starts(d, p);
    let mut cost = linked_cost(&a.problem);
    for i in 0..runs as usize {
        let mut state = State::first(&a.problem.theta[i * a.list_length()..][..a.list_length()], &mut cost);
        state.turns(d.below(12), a.cap(), &mut cost);
        a.put(i, &state);
    }
    a
}

pub fn ordinary(d: &mut Draw) -> Asked {
    let (f, runs) = (families(d), 1 + d.below(3));
    let p = either(d, f);
    running(d, p, runs)
}

/// What the next turn of a run does, and the points that it asks for with their costs.
fn next(a: &Asked, state: &State) -> (Option<Move>, Vec<Vertex>) {
    let (mut cost, mut asked) = (linked_cost(&a.problem), vec![]);
    let mut watched = |at: &[f64]| {
        let cost = cost(at);
        asked.push(Vertex { cost, at: at.to_vec() });
        cost
    };
    let how = state.clone().turn(a.cap(), &mut watched);
    (how, asked)
}

fn of(name: &str, wanted: u64, draw: impl Fn(&mut Draw) -> Asked + 'static, meets: impl Fn(&Asked) -> bool + 'static) -> Own {
    own(
        name,
        wanted,
        move |d| draw(d).words(),
        move |w| {
            let a = Asked::read(w);
            rules::first(&a.of_going_on()).is_none() && meets(&a)
        },
    )
}

/// Of runs in the middle of a search, each changed.
fn changed(name: &str, wanted: u64, change: fn(&mut Draw, &Asked, &mut State), meets: impl Fn(&Asked) -> bool + 'static) -> Own {
    let draw = move |d: &mut Draw| {
        let mut a = ordinary(d);
        for i in 0..a.runs as usize {
            let mut state = a.state(i);
            change(d, &a, &mut state);
            a.put(i, &state);
        }
        a
    };
    of(name, wanted, draw, meets)
}

// ---- costs

fn costs_put(state: &mut State, mut by: impl FnMut(usize) -> f64) {
    state.vertices.iter_mut().enumerate().for_each(|(i, vertex)| vertex.cost = by(i));
}

/// Half of the costs above the mean and half below, so that their mean squared deviation is 1e-8, or a neighbour of it.
fn together(d: &mut Draw, state: &mut State) {
    let (n, half) = (state.vertices.len(), state.vertices.len() / 2);
    let (mean, off) = (d.pick(&[0.0, 1.0, 1.5]), (1e-8 * n as f64 / (2 * half) as f64).sqrt());
    costs_put(state, |i| match i {
        _ if i < half => mean + d.beside(off, 3),
        _ if i < 2 * half => mean - d.beside(off, 3),
        _ => mean,
    });
    let turned = d.below(n as u64) as usize;
    state.vertices.rotate_left(turned);
}

fn costs() -> Vec<Own> {
    let beside = |stops: bool| {
        move |a: &Asked| {
            (0..a.runs as usize).any(|i| {
                let (before, mut after) = (a.state(i), a.state(i));
                after.turns(u64::from(a.limit() > 0), a.cap(), linked_cost(&a.problem));
                !before.stopped && a.limit() > 0 && (before.deviation() - 1e-8).abs() < 1e-16 && after.stopped == stops
            })
        }
    };
    vec![
        changed(
            "costs of a few values",
            1_000,
            |d, _, state| {
                let few = [d.octaves(10, 20), d.octaves(10, 20), state.vertices[0].cost];
                costs_put(state, |_| d.pick(&few));
            },
            |_| true,
        ),
        changed(
            "all costs level but the last",
            300,
            |d, _, state| {
                let (level, n) = (d.octaves(10, 20), state.vertices.len());
                costs_put(state, |i| if i + 1 < n { level } else { level + 1.0 });
            },
            |_| true,
        ),
        changed("zeros of both signs", 500, |d, _, state| costs_put(state, |_| d.pick(&[0.0, -0.0, 1.0])), |_| true),
        changed(
            "some costs infinite",
            500,
            |d, _, state| {
                let one = d.below(state.vertices.len() as u64) as usize;
                state.vertices.iter_mut().enumerate().for_each(|(i, v)| {
                    if i == one || d.one_in(3) {
                        v.cost = f64::INFINITY;
                    }
                });
            },
            |_| true,
        ),
        changed("all costs infinite", 300, |_, _, state| costs_put(state, |_| f64::INFINITY), |_| true),
        changed(
            "costs of any bits but a NaN",
            500,
            |d, _, state| {
                costs_put(state, |_| Some(d.any()).filter(|x| !x.is_nan()).unwrap_or(f64::INFINITY));
            },
            |_| true,
        ),
        changed("the deviation just below 1e-8", 300, |d, _, state| together(d, state), beside(true)),
        changed("the deviation at 1e-8 or just above", 300, |d, _, state| together(d, state), beside(false)),
    ]
}

// ---- moves

/// Vertices so near to a start that a cost falls or rises all along a line.
fn near(d: &mut Draw, a: &Asked) -> State {
    let start = &a.problem.theta;
    let vertex = |d: &mut Draw| Vertex { cost: 0.0, at: start.iter().map(|x| x + d.between(-0.02, 0.02)).collect() };
    State { vertices: (0..a.width()).map(|_| vertex(d)).collect(), iterations: d.below(900), stopped: false }
}

/// A run whose stored costs are made for a move; the first of them all that is asked for is r.
fn made_for(d: &mut Draw, a: &Asked, state: &mut State, how: Move) {
    let n = state.vertices.len();
    match how {
        Move::Expanded | Move::NotExpanded => costs_put(state, |i| 1e12 + i as f64),
        Move::Reflected => costs_put(state, |i| if i == 0 { -1.0 } else { 1e12 + i as f64 }),
        Move::Outer | Move::ShrunkOuter => costs_put(state, |i| if i + 1 < n { i as f64 - 50.0 } else { 1e12 }),
        Move::Inner | Move::ShrunkInner => {
            costs_put(state, |i| i as f64 - 50.0);
            let r = next(a, state).1[0].cost;
            state.vertices[n - 1].cost = if d.one_in(3) { r } else { r - d.octaves(-3, 8) };
        }
    }
}

fn moves() -> Vec<Own> {
    const ALL: [(Move, &str); 7] = [
        (Move::Reflected, "reflected"),
        (Move::Expanded, "expanded"),
        (Move::NotExpanded, "not expanded"),
        (Move::Outer, "the outer point"),
        (Move::Inner, "the inner point"),
        (Move::ShrunkOuter, "shrunk, the outer point dearer"),
        (Move::ShrunkInner, "shrunk, the inner point no cheaper"),
    ];
    let one = |(how, name): (Move, &str)| {
        let made = move |d: &mut Draw, a: &Asked, state: &mut State| made_for(d, a, state, how);
        close(&format!("a move: {name}"), 150, made, move |a| next(a, &a.state(0)).0 == Some(how))
    };
    let mut strata: Vec<Own> = ALL.into_iter().map(one).collect();
    strata.push(close("a tie: r costs what the best does, and the expansion less", 100, best_is_r, |a| {
        let (how, asked) = next(a, &a.state(0));
        how == Some(Move::Reflected) && asked[0].cost == a.state(0).vertices[0].cost && expansion(a) < asked[0].cost
    }));
    strata.push(close("a column of zeros, all -0 but the worst's", 100, zeros, |a| next(a, &a.state(0)).0 == Some(Move::Reflected)));
    strata
}

/// One run whose vertices are close together.
fn close(
    name: &str,
    wanted: u64,
    change: impl Fn(&mut Draw, &Asked, &mut State) + 'static,
    meets: impl Fn(&Asked) -> bool + 'static,
) -> Own {
    let draw = move |d: &mut Draw| {
        let f = families(d);
        let p = simulated(d, f);
        let mut a = Asked::from_starts(d, p);
        let mut state = near(d, &a);
        change(d, &a, &mut state);
        a.put(0, &state);
        a.then(|a| a.limits = vec![1 + d.below(2)])
    };
    of(name, wanted, draw, meets)
}

fn best_is_r(d: &mut Draw, a: &Asked, state: &mut State) {
    made_for(d, a, state, Move::Expanded);
    state.vertices[0].cost = next(a, state).1[0].cost;
}

/// What the expansion would cost: it is asked for where the best costs more than r.
fn expansion(a: &Asked) -> f64 {
    let mut state = a.state(0);
    state.vertices[0].cost = 1e11;
    next(a, &state).1[1].cost
}

fn zeros(d: &mut Draw, a: &Asked, state: &mut State) {
    let column = d.below(a.list_length() as u64) as usize;
    state.vertices.iter_mut().for_each(|v| v.at[column] = -0.0);
    state.vertices.last_mut().expect("a run has vertices").at[column] = 0.0;
    made_for(d, a, state, Move::Reflected);
}

/// A run over which every cost is the same: its vertices differ in the repeat's ratio alone, and there are no repeats. The stored costs are
/// `by` of that cost, by the place in order.
fn level(name: &str, how: Move, by: fn(f64, usize, usize) -> f64) -> Own {
    let draw = move |d: &mut Draw| {
        let f = families(d);
        let mut p = made(d, f);
        without_repeats(&mut p);
        let (start, ratio, k) = (p.theta.clone(), p.base(), linked_cost(&p)(&p.theta));
        let mut a = Asked::from_starts(d, p);
        let n = a.width();
        let vertices = (0..n).map(|i| {
            let mut at = start.clone();
            at[ratio] += d.between(-1.0, 1.0);
            Vertex { cost: by(k, i, n), at }
        });
        let state = State { vertices: vertices.collect(), iterations: d.below(900), stopped: false };
        a.put(0, &state);
        a.then(|a| a.limits = vec![1])
    };
    of(name, 100, draw, move |a| {
        let (taken, asked) = next(a, &a.state(0));
        taken == Some(how) && asked[0].cost.is_finite() && asked.iter().all(|v| v.cost == asked[0].cost)
    })
}

fn ties() -> Vec<Own> {
    let below = |k: f64, i: usize, n: usize| k - (n - i) as f64;
    vec![
        level("a tie: the expansion costs what r does", Move::NotExpanded, |k, i, _| k + 1.0 + i as f64),
        level("a tie: r costs what the best does", Move::Reflected, |k, i, _| k + i as f64),
        level("a tie: r costs what the second worst does", Move::Outer, |k, i, n| if i + 1 < n { k - (n - 2 - i) as f64 } else { k + 1.0 }),
        level("a tie: the outer point costs what r does", Move::Outer, |k, i, n| if i + 1 < n { k - (n - i) as f64 } else { k + 1.0 }),
        level("a tie: r and the inner point cost what w does", Move::ShrunkInner, |k, i, n| if i + 1 < n { k - (n - i) as f64 } else { k }),
        level("r and the inner point cost more than w", Move::ShrunkInner, below),
    ]
}

// ---- ends, limits and coordinates

fn ends() -> Vec<Own> {
    let all = |meets: fn(&Asked, &State) -> bool| move |a: &Asked| (0..a.runs as usize).all(|i| meets(a, &a.state(i)));
    let limits = |limits: fn(&mut Draw, &Asked) -> u64| move |d: &mut Draw| ordinary(d).then(|a| a.limits = vec![limits(d, a)]);
    vec![
        changed("the cap in reach", 500, |d, a, state| state.iterations = a.cap() - 1 - d.below(4), |a| a.limit() > 0),
        changed("at the cap", 200, |_, a, state| state.iterations = a.cap(), all(|a, state| state.iterations == a.cap())),
        changed(
            "past the cap",
            200,
            |d, a, state| {
                state.iterations = if d.one_in(2) { a.cap() + 1 + d.below(1000) } else { u64::MAX - d.below(3) };
            },
            all(|a, state| state.iterations > a.cap()),
        ),
        changed("at the other families' cap", 200, |_, a, state| state.iterations = 3_000 - a.cap(), |_| true),
        changed("stopped before", 200, |_, _, state| state.stopped = true, all(|_, state| state.stopped)),
        of(
            "stopped before, by a byte of 2 to 255",
            200,
            |d| ordinary(d).then(|a| a.stopped.iter_mut().for_each(|byte| *byte = 2 + d.below(254) as u8)),
            |a| a.stopped.iter().all(|&byte| byte > 1),
        ),
        of("a limit of 0", 200, limits(|_, _| 0), |a| a.limit() == 0),
        of(
            "a limit of 2^64-1, near the cap",
            200,
            |d| {
                let mut a = ordinary(d);
                for i in 0..a.runs as usize {
                    a.iterations[i] = a.cap() - 1 - d.below(20);
                }
                a.then(|a| a.limits = vec![u64::MAX - d.below(2)])
            },
            |a| a.limit() >= u64::MAX - 1,
        ),
        of("a limit of 5 to 60", 100, limits(|d, _| 5 + d.below(56)), |_| true),
    ]
}

fn coordinates() -> Vec<Own> {
    let put = |name: &str, by: fn(&mut Draw) -> f64| {
        let draw = move |d: &mut Draw| {
            let mut a = ordinary(d);
            for i in 0..a.runs as usize {
                let mut state = a.state(i);
                let numbers = state.vertices.iter_mut().flat_map(|v| &mut v.at);
                numbers.for_each(|x| *x = if d.one_in(20) { by(d) } else { *x });
                a.put(i, &state);
            }
            a
        };
        of(name, 300, draw, |_| true)
    };
    vec![
        put("coordinates of any bits", Draw::any),
        put("coordinates of extreme numbers", Draw::extreme),
        put("a NaN among the coordinates", Draw::nan),
        put("an infinity among the coordinates", Draw::infinity),
        put("zeros of both signs among the coordinates", |d| d.sign(0.0)),
    ]
}

fn arguments() -> Vec<Own> {
    let scale = |name: &str, by: fn(&mut Draw) -> f64| of(name, 100, move |d| ordinary(d).then(|a| a.problem.scale = by(d)), |_| true);
    let to = |end: fn(&mut Draw) -> u64| {
        move |d: &mut Draw| {
            let ((error, genome), end) = (families(d), end(d));
            let p = Problem::to(d, error, genome, end);
            running(d, p, 1)
        }
    };
    let mut strata = vec![
        scale("scale below 1", |d| d.between(-2.0, 1.0)),
        scale("scale not finite", |d| if d.one_in(2) { d.nan() } else { d.infinity() }),
        scale("scale above 1", |d| d.between(1.0, 8.0)),
        of(
            "families of 2 to 255",
            200,
            |d| {
                let (error, genome) = (2 + d.below(254) as u8, 2 + d.below(254) as u8);
                let p = made(d, (error, genome));
                running(d, p, 1)
            },
            |_| true,
        ),
        of("window end 1", 100, to(|_| 1), |_| true),
        of("window end 2", 100, to(|_| 2), |_| true),
        of("window end 100 to 1,999", 20, to(|d| 100 + d.below(1900)), |_| true),
        of("no runs", 100, |d| ordinary(d).then(|a| a.runs = 0), |a| a.runs == 0),
        of(
            "fewer runs than the slices hold",
            200,
            |d| {
                let f = families(d);
                let p = either(d, f);
                running(d, p, 3).then(|a| a.runs = 1 + d.below(2))
            },
            |a| a.runs < 3,
        ),
        of("slices that just hold the runs", 200, |d| ordinary(d).then(just), |_| true),
    ];
    for (error, genome, name) in FAMILIES {
        let draw = move |d: &mut Draw| {
            let (p, runs) = (either(d, (error, genome)), 1 + d.below(3));
            running(d, p, runs)
        };
        strata.push(of(name, 300, draw, |_| true));
    }
    strata
}

/// Each slice as long as it must be.
pub fn just(a: &mut Asked) {
    let (runs, end) = (a.runs as usize, a.problem.window_end as usize);
    a.simplexes.truncate(runs * a.each());
    a.iterations.truncate(runs);
    a.stopped.truncate(runs);
    a.ready.truncate(2 * (end + 2));
    a.problem.table.truncate(if a.problem.with_shelf() { end + 1 } else { 0 });
}

pub fn strata() -> Vec<Own> {
    [costs(), moves(), ties(), ends(), coordinates(), arguments()].into_iter().flatten().collect()
}
