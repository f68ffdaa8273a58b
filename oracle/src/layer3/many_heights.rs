//! The heights at the counts 1 to a last one, into a lent slice.

use super::call;
use super::fits::{fit_and, ordinary, unpacked};
use super::rust::{linked as side, FIT};
use crate::call::{own, Answer, Call, Kind, Kind::*, Own};
use crate::draw::Draw;
use crate::heights::component_heights_to;
use crate::rules;
use crate::words::{after, fit, lent, push_slice, slice};

const FIT_AND_LAST: &[(&str, Kind)] = fit_and!(("last", Other));

fn to(d: &mut Draw, mut fit: Vec<u64>, last: u64, room: u64) -> Vec<u64> {
    fit.push(last);
    let held: Vec<f64> = (0..room).map(|_| d.any()).collect();
    push_slice(&mut fit, &held);
    fit
}

fn some(d: &mut Draw) -> Vec<u64> {
    let (fit, last) = (ordinary(d), d.below(12));
    let room = 3 * last + d.below(3);
    to(d, fit, last, room)
}

fn refusal(w: &[u64]) -> Option<u64> {
    let (last, room) = (w[FIT], w[FIT + 1]);
    rules::first(&[(2, rules::window_too_far(last)), (10, last < 1 << 60 && room < 3 * last)])
}

/// The number, the entries written, and the slice.
fn written(number: u64, items: u64, before: &[f64], now: &[f64]) -> Vec<u64> {
    [vec![number, items], after(before, now)].concat()
}

fn port_heights(w: &[u64]) -> Vec<u64> {
    let held = slice(w, FIT + 1);
    let (answer, now) = lent(&held, |out| component_heights_to(fit(w), w[FIT] as usize, out));
    written(answer.number.into(), answer.items as u64, &held, &now)
}

fn linked_heights(w: &[u64]) -> Vec<u64> {
    let held = slice(w, FIT + 1);
    if let Some(number) = refusal(w) {
        return written(number, 0, &held, &held);
    }
    let (fit, last) = (side::fit(w), w[FIT] as usize);
    let heights: Vec<f64> = (1..=last).flat_map(|count| fit.component_heights(count)).collect();
    let mut now = held.clone();
    now[..heights.len()].copy_from_slice(&heights);
    written(0, heights.len() as u64, &held, &now)
}

fn strata() -> Vec<Own> {
    let last = |name: &str, wanted, last: u64| {
        let draw = move |d: &mut Draw| {
            let fit = ordinary(d);
            to(d, fit, last, 3 * last)
        };
        own(name, wanted, draw, move |w| w[FIT] == last)
    };
    vec![
        own(
            "fits of unpack",
            20_000,
            |d| {
                let (fit, last) = (unpacked(d), 1 + d.below(60));
                to(d, fit, last, 3 * last)
            },
            |w| refusal(w).is_none(),
        ),
        last("no count", 20_000, 0),
        last("the last count 1", 20_000, 1),
        last("the last count 65,535", 20, 65_535).long(),
        own(
            "slice too short, refusal 10",
            20_000,
            |d| {
                let (fit, last) = (ordinary(d), 1 + d.below(12));
                let room = if d.one_in(2) { 3 * last - 1 } else { d.below(3 * last) };
                to(d, fit, last, room)
            },
            |w| refusal(w) == Some(10),
        ),
        own(
            "refusal 2",
            20_000,
            |d| {
                let (fit, last, room) = (ordinary(d), d.window_too_far(), d.below(9));
                to(d, fit, last, room)
            },
            |w| refusal(w) == Some(2),
        ),
    ]
}

pub fn calls() -> Vec<Call> {
    let heights = call(93, "component_heights_to", FIT_AND_LAST, Answer::Given { whole: 1, floats: 0 }, some, port_heights, linked_heights);
    vec![Call { own: strata(), ..heights }]
}
