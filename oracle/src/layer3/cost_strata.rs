//! The strata of cost and unpack.

use super::costs::{stop, For, Stop};
use super::rust::linked as side;
use super::Problem;
use crate::call::Own;
use crate::draw::Draw;
use crate::linked::math_helpers::shelf_trials;
use crate::rules;

const NUMBERS: [u64; 7] = [1, 2, 4, 5, 6, 7, 10];

fn with_scale(d: &mut Draw, scale: f64) -> Problem {
    let mut p = Problem::ordinary(d);
    p.scale = scale;
    p
}

/// Bins of 2^28 to 2^32 where there are any: some are left at a scale of 1e9.
fn at_a_billion(d: &mut Draw) -> Problem {
    let mut p = with_scale(d, 1e9);
    p.bins.iter_mut().for_each(|n| *n = if *n == 0 { 0 } else { d.octaves(28, 31) as u32 });
    p
}

fn with_dispersion(d: &mut Draw, log: f64) -> Problem {
    let mut p = Problem::ordinary(d);
    p.theta[3] = log;
    p
}

fn dispersion(p: &Problem) -> f64 {
    side::mixture(p).params(&p.theta).dispersion
}

/// A window end within two of the trials.
fn around_the_trials(d: &mut Draw) -> Problem {
    let mut p = Problem::ordinary(d);
    p.turn_to_shelf(d);
    let trials = shelf_trials(side::mixture(&p).params(&p.theta).mean).min(60.0) as u64;
    let end = (trials + d.below(5)).saturating_sub(2).max(1);
    p.window_end = end;
    let bins = (end + d.below(3)).max(2);
    p.spectrum(d, bins);
    p.table = (0..end + 1 + d.below(2)).map(|_| d.any()).collect();
    p
}

fn trials_are_near(p: &Problem) -> bool {
    let trials = shelf_trials(side::mixture(p).params(&p.theta).mean);
    p.with_shelf() && (trials - p.window_end as f64).abs() <= 2.0
}

fn to(d: &mut Draw, end: u64) -> Problem {
    let (error, genome) = (d.family(), d.family());
    Problem::to(d, error, genome, end)
}

/// A far window, with a peak of any size in it.
fn far(d: &mut Draw, end: u64) -> Problem {
    let mut p = to(d, end);
    p.peak = (d.octaves(1, 15) as u64).clamp(2, end);
    p
}

fn list_put(d: &mut Draw, by: impl Fn(&mut Draw) -> f64) -> Problem {
    let mut p = Problem::ordinary(d);
    let one = d.below(p.theta.len() as u64) as usize;
    for i in 0..p.theta.len() {
        if i == one || d.one_in(4) {
            p.theta[i] = by(d);
        }
    }
    p
}

/// Coordinate i, where the families have one.
fn one_put(d: &mut Draw, i: usize, by: fn(&mut Draw) -> f64) -> Problem {
    let mut p = Problem::ordinary(d);
    while p.theta.len() <= i {
        p = Problem::ordinary(d);
    }
    p.theta[i] = by(d);
    p
}

fn room(d: &mut Draw, room: impl Fn(u64, &mut Draw) -> u64) -> Problem {
    let mut p = Problem::ordinary(d);
    p.turn_to_shelf(d);
    let entries = room(p.window_end + 1, d);
    p.table = (0..entries).map(|_| d.any()).collect();
    p
}

fn any_room(d: &mut Draw) -> Problem {
    let mut p = Problem::of(d, 0, 0);
    p.error = d.family();
    if !p.weibull() {
        p.theta.pop();
    }
    p.table.truncate(d.below(p.table.len() as u64 + 1) as usize);
    p
}

/// A repeat lobe of no mean; or a window of count 1 alone, to which the error component gives nothing.
fn no_masses(d: &mut Draw) -> Problem {
    if d.one_in(2) {
        let mut p = Problem::ordinary(d);
        let ratio = p.base();
        p.theta[ratio] = d.nan();
        return p;
    }
    to(d, 1).then(|p| p.theta[5] = d.between(-900.0, -750.0))
}

/// Nothing but errors, whose tail ends at once; or a window of one count, whose likelihood is 1 but for rounding.
fn no_likelihood(d: &mut Draw) -> Problem {
    if d.one_in(4) {
        return to(d, 1);
    }
    let mut p = Problem::ordinary(d);
    p.theta[0] = f64::NEG_INFINITY;
    p.theta[1] = f64::NEG_INFINITY;
    p.theta[4] = d.between(709.5, 709.78);
    p.bins.fill(1000);
    p
}

fn wide_dispersion(d: &mut Draw) -> Problem {
    with_dispersion(d, 0.0).then(|p| p.theta[3] = d.between(37.0, 700.0))
}

/// A window end of 130 to 259, with entry `i` of the list in this range.
fn middling(d: &mut Draw, i: usize, from: f64, to: f64) -> Problem {
    let end = 130 + d.below(130);
    far(d, end).then(|p| p.theta[i] = d.between(from, to))
}

/// A dispersion of 2^52 to 2^53, whose doubles are 1 apart, and a target mode of a whole number and a half.
fn half_off(d: &mut Draw) -> Problem {
    let mut p = middling(d, 3, 36.1, 36.7);
    p.peak = 2 + 4 * d.below(16);
    p.theta[2] = d.between(-900.0, -750.0);
    p
}

fn round_trip(p: &Problem) -> f64 {
    let params = side::mixture(p).params(&p.theta);
    (params.mean - (params.dispersion - 1.0) - params.target_mode).abs()
}

/// Both lobes inside the window but for what no double can tell; drawn again where no mass is above 1, which is most often so.
fn whole_lobes(d: &mut Draw) -> Problem {
    let mut draw = || {
        let peak = 50 + d.below(10);
        middling(d, 3, -30.0, -2.0).then(|p| p.peak = peak)
    };
    (0..7).map(|_| draw()).find(above_one).unwrap_or_else(draw)
}

/// The log of a mass above 0 by rounding.
fn above_one(p: &Problem) -> bool {
    let mixture = side::mixture(p);
    let params = mixture.params(&p.theta);
    let masses = mixture.log_window_masses(params, side::table(p, &params).as_deref());
    masses.iter().any(|&mass| mass > 0.0) && masses.iter().all(|&mass| mass <= 1e-12)
}

/// What stands beside a limit of the cost's tests, on the side that is used. The limits are written out: a planted fault may move the Rust's.
fn beside_limits(of: For) -> Vec<Own> {
    let singleton = |p: &Problem| side::mixture(p).params(&p.theta).error_params.singleton_probability;
    let told = |p: &Problem| p.refusal().is_none();
    vec![
        of.own(
            "round trip of 0.25 to 0.5",
            5_000,
            |d| middling(d, 3, 36.1, 36.7),
            move |p| told(p) && round_trip(p) > 0.25 && round_trip(p) < 0.5,
        )
        .long(),
        of.own("round trip of exactly 0.5", 2_000, half_off, move |p| told(p) && round_trip(p) == 0.5).long(),
        of.own(
            "singleton probability 1 - 2^-52, the last below 1",
            2_000,
            |d| middling(d, 5, 35.7, 36.7),
            move |p| told(p) && singleton(p) == 1.0 - f64::EPSILON,
        )
        .long(),
        of.own("a window mass above 1 by rounding", 2_000, whole_lobes, move |p| told(p) && above_one(p)).long(),
    ]
}

fn configurations(of: For) -> Vec<Own> {
    let four = [(0, 0, "Weibull"), (0, 1, "Weibull with shelf"), (1, 0, "Pareto"), (1, 1, "Pareto with shelf")];
    four.map(|(error, genome, name)| {
        of.ordinary(name, 50_000, move |d| Problem::of(d, error, genome), move |p| p.error == error && p.genome == genome)
    })
    .into_iter()
    .chain([of.own(
        "families of 2 to 255",
        5_000,
        |d| {
            let (error, genome) = (2 + d.below(254) as u8, 2 + d.below(254) as u8);
            Problem::of(d, error, genome)
        },
        |p| p.error > 1 && p.genome > 1,
    )])
    .collect()
}

fn windows(of: For) -> Vec<Own> {
    vec![
        of.own("window end 1", 20_000, |d| to(d, 1), |p| p.window_end == 1 && p.refusal().is_none()),
        of.own("window end 2", 20_000, |d| to(d, 2), |p| p.window_end == 2 && p.refusal().is_none()),
        of.ordinary("trials around the window end", 30_000, around_the_trials, trials_are_near),
        of.ordinary(
            "window end 100 to 1,999",
            2_000,
            |d| {
                let end = 100 + d.below(1900);
                far(d, end)
            },
            |p| p.window_end >= 100,
        )
        .long(),
        of.ordinary("window end 65,535", 300, |d| far(d, 65_535), |p| p.window_end == 65_535).long(),
    ]
}

fn lists(of: For) -> Vec<Own> {
    let mut strata = vec![
        of.ordinary(
            "dispersion 1 + 1e-12 to 1 + 1e-9",
            10_000,
            |d| with_dispersion(d, 0.0).then(|p| p.theta[3] = d.between(-27.6, -20.8)),
            |p| dispersion(p) > 1.0 && dispersion(p) < 1.0 + 1e-9,
        ),
        of.ordinary(
            "dispersion 1 + 1e-9 to 1.001",
            10_000,
            |d| with_dispersion(d, 0.0).then(|p| p.theta[3] = d.between(-20.6, -7.0)),
            |p| dispersion(p) > 1.0 + 1e-9 && dispersion(p) < 1.001,
        ),
        of.ordinary(
            "dispersion exactly 1",
            10_000,
            |d| with_dispersion(d, 0.0).then(|p| p.theta[3] = d.between(-800.0, -38.0)),
            |p| dispersion(p) == 1.0,
        ),
        of.own("list of extreme numbers", 20_000, |d| list_put(d, Draw::extreme), |p| p.refusal().is_none()),
        of.own("list of any bits", 20_000, |d| list_put(d, Draw::any), |p| p.refusal().is_none()),
        of.own("list far out, -800 to 800", 20_000, |d| list_put(d, |d| d.between(-800.0, 800.0)), |p| p.refusal().is_none()),
    ];
    for i in 0..11 {
        strata.push(of.own(&format!("list entry {i} a NaN"), 3_000, move |d| one_put(d, i, Draw::nan), move |p| p.theta[i].is_nan()));
        strata.push(of.own(
            &format!("list entry {i} infinite"),
            3_000,
            move |d| one_put(d, i, Draw::infinity),
            move |p| p.theta[i].is_infinite(),
        ));
    }
    strata
}

fn scales(of: For) -> Vec<Own> {
    vec![
        of.ordinary("scale 1", 10_000, |d| with_scale(d, 1.0), |p| p.scale == 1.0),
        of.ordinary("scale 2.5", 10_000, |d| with_scale(d, 2.5), |p| p.scale == 2.5),
        of.ordinary("scale 1e9", 10_000, at_a_billion, |p| p.scale == 1e9),
        of.ordinary("scale below 1", 10_000, |d| with_scale(d, 0.0).then(|p| p.scale = d.between(-2.0, 1.0)), |p| p.scale < 1.0),
    ]
}

fn tables(of: For) -> Vec<Own> {
    let shelf = |p: &Problem| p.with_shelf() && p.refusal().is_none();
    vec![
        of.own("table one short, refusal 10", 10_000, |d| room(d, |n, _| n - 1), |p| p.refusal() == Some(10)),
        of.ordinary("table exact", 10_000, |d| room(d, |n, _| n), move |p| shelf(p) && p.table.len() as u64 == p.window_end + 1),
        of.ordinary(
            "table longer, what lies behind kept",
            10_000,
            |d| room(d, |n, d| n + 1 + d.below(8)),
            move |p| shelf(p) && p.table.len() as u64 > p.window_end + 1,
        ),
        of.ordinary("no shelf, any table", 10_000, any_room, |p| !p.with_shelf()),
    ]
}

fn stops(of: For) -> Vec<Own> {
    let at = |which: Stop| move |p: &Problem| p.refusal().is_none() && stop(p) == which;
    vec![
        of.own("parameters that can't be used", 5_000, |d| list_put(d, |d| d.sign(900.0)), at(Stop::Parameters)),
        of.own("round trip off", 5_000, wide_dispersion, at(Stop::RoundTrip)),
        of.own("window masses that can't be used", 5_000, no_masses, at(Stop::Masses)),
        of.own("log-likelihood that can't be used", 5_000, no_likelihood, at(Stop::LogLikelihood)),
        of.ordinary("a finite cost", 20_000, Problem::ordinary, |p| stop(p) == Stop::Nowhere),
    ]
}

/// Whether `first` comes back though `second` applies too.
fn both(p: &Problem, first: u64, second: u64) -> bool {
    p.refusal() == Some(first) && rules::of_a_fit(p).contains(&(second, true))
}

pub fn refusals(of: For) -> Vec<Own> {
    let mut strata: Vec<Own> = NUMBERS
        .map(|n| {
            of.own(&format!("refusal {n}"), 3_000, move |d| Problem::ordinary(d).then(|p| p.refused(d, n)), move |p| p.refusal() == Some(n))
        })
        .into_iter()
        .collect();
    for (i, &a) in NUMBERS.iter().enumerate() {
        for &b in &NUMBERS[i + 1..] {
            let draw = move |d: &mut Draw| {
                let mut p = Problem::ordinary(d);
                p.refused(d, b);
                p.refused(d, a);
                p
            };
            strata.push(of.own(&format!("refusals {a} and {b}"), 1_000, draw, move |p| both(p, a, b)));
        }
    }
    let many = |d: &mut Draw| Problem::ordinary(d).then(|p| p.bins.resize(65_536 + d.below(3) as usize, 1));
    strata.push(of.own("refusal 2 for 65,536 bins and more", 300, many, |p| p.refusal() == Some(2) && p.bins.len() > 65_535).long());
    strata
}

pub fn strata(of: For) -> Vec<Own> {
    [configurations(of), windows(of), lists(of), scales(of), tables(of), stops(of), beside_limits(of), refusals(of)]
        .into_iter()
        .flatten()
        .collect()
}
