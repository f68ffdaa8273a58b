//! The port's own rules, which the Rust lacks: document 01's refusals, the lowest number first.

use crate::layer3::Problem;
use crate::layer4::{Run, RunTable};

/// A window end above 65,535, and one of 0.
pub fn window(top: u64) -> Option<u64> {
    first(&[(2, window_too_far(top)), (5, top == 0)])
}

/// The shelf table has min(trials, window end) + 1 entries; the lent slice has `room`.
pub fn table(trials: f64, top: u64, room: u64) -> Option<u64> {
    first(&[(2, window_too_far(top)), (5, top == 0), (10, too_short(trials, top, room))])
}

pub fn window_too_far(top: u64) -> bool {
    top > 65_535
}

pub fn too_short(trials: f64, top: u64, room: u64) -> bool {
    room <= trials.min(top as f64) as u64
}

/// A recovered bin: n divided by the scale, rounded with halves away from zero.
pub fn recovered(n: u32, scale: f64) -> u32 {
    (f64::from(n) / scale).round() as u32
}

/// A scale that is not finite or is below 1 becomes 1.
pub fn used(scale: f64) -> f64 {
    if scale.is_finite() && scale >= 1.0 {
        scale
    } else {
        1.0
    }
}

/// Weibull 8, Weibull with shelf 11, Pareto 7, Pareto with shelf 10.
pub fn list_length(weibull: bool, shelf: bool) -> usize {
    match (weibull, shelf) {
        (true, false) => 8,
        (true, true) => 11,
        (false, false) => 7,
        (false, true) => 10,
    }
}

/// What a cost and a fit take: the numbers 1, 2, 4, 5, 6, 7 and 10, and whether each applies, whatever comes first.
pub fn of_a_fit(p: &Problem) -> [(u64, bool); 7] {
    let (bins, end) = (p.bins.len() as u64, p.window_end);
    let in_window = p.bins.iter().take(end.min(bins) as usize);
    [
        (1, p.peak < 2 || bins < 2),
        (2, bins > 65_535 || p.peak > 65_535 || end > 65_535),
        (4, p.bins.iter().all(|&n| n == 0)),
        (5, end == 0 || end > bins),
        (6, in_window.into_iter().all(|&n| recovered(n, used(p.scale)) == 0)),
        (7, p.theta.len() != list_length(p.weibull(), p.with_shelf())),
        (10, p.with_shelf() && p.table.len() as u64 <= end),
    ]
}

/// What an attempt takes: 1, 2, 4, 5, 6, 7, 9 and 10, and whether each applies. 7 and 9 speak of converged runs alone; a list that does not
/// lie in the lent numbers has the wrong length.
pub fn of_an_attempt(t: &RunTable) -> [(u64, bool); 8] {
    let p = &t.problem;
    let [(_, few), (_, many), zero, outside, none, _, short] = of_a_fit(p);
    let length = list_length(p.weibull(), p.with_shelf()) as u64;
    let runs = t.runs();
    let converged = |bad: &dyn Fn(&Run) -> bool| runs.iter().any(|run| run.converged && bad(run));
    let lies = |run: &Run| run.place.checked_add(run.length).is_some_and(|end| end <= p.theta.len() as u64);
    [
        (1, few || t.valley < 2),
        (2, many || t.valley > 65_535 || runs.len() > 65_535),
        zero,
        outside,
        none,
        (7, converged(&|run| run.length != length || !lies(run))),
        (9, converged(&|run| !run.cost.is_finite() || run.cost <= 0.0) || !t.mass_limit.is_finite() || t.mass_limit < 1.0),
        short,
    ]
}

/// The peak and the list of parameters alone.
pub fn of_a_list(p: &Problem) -> [(u64, bool); 3] {
    [(1, p.peak < 2), (2, p.peak > 65_535), (7, p.theta.len() != list_length(p.weibull(), p.with_shelf()))]
}

/// A table of error starts whose length is not a positive multiple of 3.
pub fn not_rows(length: usize) -> bool {
    length == 0 || length % 3 != 0
}

/// A hint that is not finite or not above 1 becomes 2.
pub fn hint(hint: f64) -> f64 {
    if hint.is_finite() && hint > 1.0 {
        hint
    } else {
        2.0
    }
}

pub fn first(rules: &[(u64, bool)]) -> Option<u64> {
    rules.iter().find(|(_, holds)| *holds).map(|&(number, _)| number)
}
