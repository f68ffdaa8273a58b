//! A window prepared, and the cost over it.

use super::cost_strata::strata;
use super::costs::{cost_or, plain_cost, For};
use super::{call, Problem};
use crate::call::{own, Answer, Call, Kind, Kind::*, Own};
use crate::draw::Draw;
use crate::words::{after, bits, lent, push_slice, slice};
use crate::{port, prepared, rules, search};
use std::cell::RefCell;

const WINDOW: &[(&str, Kind)] = &[("window_end", Other)];
const COST: &[(&str, Kind)] = &[("scale", Float)];

// ---- a window

/// The refusal of a window end and of so many lent entries.
fn refusal(window_end: u64, room: u64) -> Option<u64> {
    rules::window(window_end).or_else(|| (room < prepared::entries(window_end)).then_some(10))
}

fn to(d: &mut Draw, window_end: u64, room: u64) -> Vec<u64> {
    let held: Vec<f64> = (0..room).map(|_| d.any()).collect();
    let mut w = vec![window_end];
    push_slice(&mut w, &held);
    w
}

fn window(d: &mut Draw) -> Vec<u64> {
    let end = d.window();
    let room = prepared::entries(end) + d.below(4);
    to(d, end, room)
}

/// The number, the entries written, and the slice.
fn written(number: u64, items: u64, before: &[f64], now: &[f64]) -> Vec<u64> {
    [vec![number, items], after(before, now)].concat()
}

fn port_window(w: &[u64]) -> Vec<u64> {
    let held = slice(w, 1);
    let (answer, now) = lent(&held, |out| prepared::prepare_window(w[0] as usize, out));
    written(answer.number.into(), answer.items as u64, &held, &now)
}

/// ln n and lgamma(n + 1), from n = 0 to one past the window.
fn linked_window(w: &[u64]) -> Vec<u64> {
    let held = slice(w, 1);
    if let Some(number) = refusal(w[0], w[1]) {
        return written(number, 0, &held, &held);
    }
    let mut now = held.clone();
    for n in 0..w[0] as usize + 2 {
        now[2 * n] = port::ln(n as f64);
        now[2 * n + 1] = port::lgamma(n as f64 + 1.0);
    }
    written(0, prepared::entries(w[0]), &held, &now)
}

fn windows() -> Vec<Own> {
    let end = |name: &str, wanted, end: u64| own(name, wanted, move |d| to(d, end, prepared::entries(end)), move |w| w[0] == end);
    vec![
        end("window end 1", 10_000, 1),
        end("window end 2", 10_000, 2),
        end("window end 65,535", 100, 65_535).long(),
        own(
            "slice one short, refusal 10",
            20_000,
            |d| {
                let end = d.window();
                to(d, end, prepared::entries(end) - 1)
            },
            |w| refusal(w[0], w[1]) == Some(10),
        ),
        own(
            "any shorter slice, refusal 10",
            20_000,
            |d| {
                let end = d.window();
                let room = d.below(prepared::entries(end));
                to(d, end, room)
            },
            |w| refusal(w[0], w[1]) == Some(10),
        ),
        own(
            "refusal 2",
            20_000,
            |d| {
                let (end, room) = (d.window_too_far(), d.below(40));
                to(d, end, room)
            },
            |w| refusal(w[0], w[1]) == Some(2),
        ),
        own(
            "refusal 5",
            20_000,
            |d| {
                let room = d.below(40);
                to(d, 0, room)
            },
            |w| refusal(w[0], w[1]) == Some(5),
        ),
    ]
}

// ---- the cost over it: how many entries of the prepared slice are lent stands behind the scale

/// As many as the window takes, or a few more.
const OF_PREPARED: For = For { words: 1, beside: |d, p| [needed(p) + d.below(3), 0] };

fn needed(p: &Problem) -> u64 {
    if rules::window(p.window_end).is_some() {
        8
    } else {
        prepared::entries(p.window_end)
    }
}

/// The first so many entries of the slice as it is filled, and a few that nobody wrote.
fn ready(p: &Problem, entries: u64) -> Vec<f64> {
    let mut ready = if rules::window(p.window_end).is_some() { vec![] } else { prepared::window(p.window_end) };
    ready.resize(entries as usize, f64::NAN);
    ready
}

fn port_cost(w: &[u64]) -> Vec<u64> {
    let p = OF_PREPARED.read(w);
    let ready = ready(&p, w[1]);
    let (answer, table) = lent(&p.table, |table| prepared::cost(&p, &ready, table));
    [vec![answer.number.into(), bits(answer.value)], after(&p.table, &table)].concat()
}

fn short(w: &[u64]) -> bool {
    w[1] < needed(&OF_PREPARED.read(w))
}

fn linked_cost(w: &[u64]) -> Vec<u64> {
    let p = OF_PREPARED.read(w);
    let refusal = p.refusal().or_else(|| short(w).then_some(10));
    cost_or(&p, refusal)
}

/// Fewer entries than the window takes, over a problem that `change` spoils.
fn shorter(change: impl Fn(&mut Draw, &mut Problem)) -> impl Fn(&mut Draw) -> Vec<u64> {
    move |d| {
        let p = Problem::ordinary(d).then(|p| change(d, p));
        let most = needed(&p);
        let lent = if d.one_in(2) { most - 1 } else { d.below(most) };
        p.words(&[lent])
    }
}

fn short_slices() -> Vec<Own> {
    let unspoilt = |w: &[u64]| short(w) && OF_PREPARED.read(w).refusal().is_none();
    let mut strata = vec![own("prepared slice too short, refusal 10", 20_000, shorter(|_, _| ()), unspoilt)];
    for number in [1, 2, 4, 5, 6, 7, 10] {
        let spoilt = move |w: &[u64]| short(w) && OF_PREPARED.read(w).refusal() == Some(number);
        let draw = shorter(move |d, p| p.refused(d, number));
        strata.push(own(&format!("prepared slice too short, and refusal {number}"), 2_000, draw, spoilt));
    }
    strata
}

// ---- along searches

/// The points of one search after another.
fn visited(problem: impl Fn(&mut Draw) -> Problem + 'static) -> impl Fn(&mut Draw) -> Problem + 'static {
    let left: RefCell<Vec<Problem>> = RefCell::default();
    move |d| {
        let mut left = left.borrow_mut();
        if left.is_empty() {
            let start = problem(d);
            let (mut asked, mut table) = (start.clone(), start.table.clone());
            let path = search::path(&start.theta, 2_000, |theta| {
                asked.theta.copy_from_slice(theta);
                port::cost(&asked, &mut table).value
            });
            *left = path.into_iter().rev().map(|(_, theta)| Problem { theta, ..start.clone() }).collect();
        }
        left.pop().expect("a search visits its start")
    }
}

fn start(d: &mut Draw) -> Problem {
    let (error, genome, peak) = (d.family(), d.family(), 4 + d.below(30));
    let mut p = search::problem(d, error, genome, 6 * peak);
    if d.one_in(4) {
        p.scale = d.between(1.0, 8.0);
    }
    p
}

/// A spectrum with gaps, or a peak that is none: the search runs off.
fn poor_start(d: &mut Draw) -> Problem {
    let mut p = start(d);
    let end = p.window_end;
    if d.one_in(2) {
        p.spectrum(d, end + 1);
    }
    p.peak = 2 + d.below(end - 2);
    p
}

fn searches() -> Vec<Own> {
    let passed = |p: &Problem| p.refusal().is_none();
    vec![
        OF_PREPARED.ordinary("points of searches over simulated spectra", 200_000, visited(start), passed).long(),
        OF_PREPARED.ordinary("points of searches over poor spectra", 100_000, visited(poor_start), passed).long(),
    ]
}

pub fn calls() -> Vec<Call> {
    vec![
        Call {
            own: windows(),
            ..call(83, "prepare_window", WINDOW, Answer::Given { whole: 1, floats: 0 }, window, port_window, linked_window)
        },
        Call {
            own: strata(OF_PREPARED).into_iter().chain(short_slices()).chain(searches()).collect(),
            unaltered: Some(|w| plain_cost(&OF_PREPARED.read(w))),
            ..call(
                84,
                "cost_prepared",
                COST,
                Answer::Given { whole: 0, floats: 1 },
                |d| OF_PREPARED.drawn(Problem::ordinary)(d),
                port_cost,
                linked_cost,
            )
        },
    ]
}
