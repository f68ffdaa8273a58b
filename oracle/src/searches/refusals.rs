//! The strata that a number comes back from, of a beginning and of what goes on, and those of slices that just hold the runs.

use super::asked::Asked;
use super::problems::{either, families, several};
use crate::call::{own, Own};
use crate::draw::Draw;
use crate::layer3::Problem;
use crate::rules;

/// A call of the two, by its numbers.
#[derive(Clone, Copy)]
pub struct Form {
    pub numbers: &'static [u64],
    pub rules: fn(&Asked) -> Vec<(u64, bool)>,
    /// So many runs, more than there may be.
    pub too_many: fn(&mut Draw, &mut Asked),
}

pub const BEGINNING: Form = Form { numbers: &[1, 2, 4, 5, 6, 7, 10], rules: Asked::of_a_beginning, too_many: many_starts };
pub const GOING_ON: Form = Form { numbers: &[1, 2, 4, 5, 6, 10], rules: Asked::of_going_on, too_many: many_runs };

fn many_starts(d: &mut Draw, a: &mut Asked) {
    let starts = 65_536 + d.below(3) as usize;
    a.problem.theta.resize(starts * a.list_length(), 0.5);
}

fn many_runs(d: &mut Draw, a: &mut Asked) {
    a.runs = d.window_too_far();
}

/// One or two runs from drawn starts, as they stand before the first turn or with any bits.
fn asked(d: &mut Draw) -> Asked {
    let (f, starts) = (families(d), 1 + d.below(2));
    let p = either(d, f);
    let p = several(d, p, starts);
    Asked::from_starts(d, p)
}

/// The slice of a number, cut to so many entries: the table stands last.
fn cut(a: &mut Asked, slice: u64, to: usize) {
    match slice {
        0 => a.simplexes.truncate(to),
        1 => a.iterations.truncate(to),
        2 => a.stopped.truncate(to),
        3 => a.ready.truncate(to),
        _ => a.problem.table.truncate(to),
    }
}

/// What each slice must hold.
fn needed(a: &Asked) -> [usize; 5] {
    let (runs, end) = (a.runs as usize, a.problem.window_end as usize);
    let table = if a.problem.with_shelf() { end + 1 } else { 0 };
    [runs * a.each(), runs, runs, 2 * (end + 2), table]
}

fn shorten(d: &mut Draw, a: &mut Asked) {
    let (slice, needed) = (d.below(4 + u64::from(a.problem.with_shelf())), needed(a));
    let most = needed[slice as usize];
    cut(a, slice, if d.one_in(2) { most - 1 } else { d.below(most as u64) as usize });
}

fn refuse(d: &mut Draw, a: &mut Asked, number: u64, form: Form) {
    match number {
        2 if form.numbers.len() == 6 && d.one_in(2) => (form.too_many)(d, a),
        7 => {
            let more = 1 + d.below(a.list_length() as u64 - 1) as usize;
            let length = if d.one_in(2) { a.problem.theta.len() + more } else { a.problem.theta.len() - more };
            a.problem.theta.resize(length, 0.25);
        }
        10 => shorten(d, a),
        _ => a.problem.refused(d, number),
    }
}

fn of(name: &str, wanted: u64, draw: impl Fn(&mut Draw) -> Asked + 'static, meets: impl Fn(&Asked) -> bool + 'static) -> Own {
    own(name, wanted, move |d| draw(d).words(), move |w| meets(&Asked::read(w)))
}

fn each(form: Form) -> Vec<Own> {
    let one = move |&number: &u64| {
        let draw = move |d: &mut Draw| asked(d).then(|a| refuse(d, a, number, form));
        of(&format!("refusal {number}"), 100, draw, move |a| rules::first(&(form.rules)(a)) == Some(number))
    };
    form.numbers.iter().map(one).collect()
}

/// Each two that apply together: the lower is the answer.
fn pairs(form: Form) -> Vec<Own> {
    let mut strata = vec![];
    for (i, &a) in form.numbers.iter().enumerate() {
        for &b in &form.numbers[i + 1..] {
            let draw = move |d: &mut Draw| asked(d).then(|asked| [b, a].into_iter().for_each(|number| refuse(d, asked, number, form)));
            strata.push(of(&format!("refusals {a} and {b}"), 50, draw, move |asked| {
                let rules = (form.rules)(asked);
                rules::first(&rules) == Some(a) && rules.contains(&(b, true))
            }));
        }
    }
    strata
}

fn short_slices(form: Form) -> Vec<Own> {
    const NAMES: [&str; 5] = ["simplexes", "iterations", "stopped", "ready", "table"];
    let one = move |(slice, name): (usize, &&'static str)| {
        let draw = move |d: &mut Draw| {
            let (error, genome) = (d.family(), d.family() | u8::from(slice == 4));
            let p = either(d, (error, genome));
            Asked::from_starts(d, p).then(|a| cut(a, slice as u64, needed(a)[slice] - 1))
        };
        of(&format!("refusal 10, {name} one short"), 60, draw, move |a| rules::first(&(form.rules)(a)) == Some(10))
    };
    NAMES.iter().enumerate().map(one).collect()
}

fn bounds(form: Form) -> Vec<Own> {
    let number = move |number: u64| move |a: &Asked| rules::first(&(form.rules)(a)) == Some(number);
    let spoilt = move |spoil: fn(&mut Draw, &mut Problem)| move |d: &mut Draw| asked(d).then(|a| spoil(d, &mut a.problem));
    vec![
        of("refusal 1, the peak", 40, spoilt(|d, p| p.peak = d.below(2)), number(1)),
        of("refusal 1, the bins", 40, spoilt(|d, p| p.bins.truncate(d.below(2) as usize)), number(1)),
        of("refusal 2, the peak", 40, spoilt(|d, p| p.peak = d.window_too_far()), number(2)),
        of("refusal 2, the window end", 40, spoilt(|d, p| p.window_end = d.window_too_far()), number(2)),
        of("refusal 2, the bins", 10, spoilt(|d, p| p.bins.resize(65_536 + d.below(3) as usize, 1)), number(2)),
        of(
            "refusal 2, 65,536 runs and more",
            10,
            move |d| asked(d).then(|a| (form.too_many)(d, a)),
            move |a| number(2)(a) && a.started().max(a.runs) > 65_535,
        ),
        of("refusal 5, a window end of 0", 40, spoilt(|_, p| p.window_end = 0), number(5)),
        of("refusal 5, a window end one past the bins", 40, spoilt(|_, p| p.window_end = p.bins.len() as u64 + 1), number(5)),
    ]
}

pub fn strata(form: Form) -> Vec<Own> {
    [each(form), pairs(form), short_slices(form), bounds(form)].into_iter().flatten().collect()
}
