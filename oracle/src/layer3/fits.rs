//! What is read off a fit.

use super::rust::{linked as side, unaltered as plain, FIT};
use super::{call, Problem};
use crate::call::{ordinary_own, own, Answer, Answer::Floats, Call, Kind, Kind::*, Own, Told};
use crate::draw::Draw;
use crate::words::{bits, fit, float};
use crate::{port, rules};

macro_rules! fit_and {
    ($($more:expr),*) => {
        &[
            ("error_model", Other),
            ("genome_model", Other),
            ("shape_present", Other),
            ("shelf_present", Other),
            ("fit_window_end", Other),
            ("best_iterations", Whole),
            ("w_error", Float),
            ("w_single", Float),
            ("w_repeat", Float),
            ("mean", Float),
            ("dispersion", Float),
            ("target_mode", Float),
            ("singleton_probability", Float),
            ("tail_exponent", Float),
            ("weibull_shape", Float),
            ("share", Float),
            ("alpha", Float),
            ("beta", Float),
            ("repeat_ratio", Float),
            ("genome_kmers", Float),
            ("error_kmers", Float),
            ("repeat_kmers", Float),
            ("log_likelihood", Float),
            ("bic", Float),
            ("deviance", Float),
            ("error mass", Float),
            ("single mass", Float),
            ("repeat mass", Float),
            ("error total", Float),
            ("single total", Float),
            ("repeat total", Float),
            ("observed_total", Float),
            ("full_distinct_total", Float),
            $($more),*
        ]
    };
}
pub(crate) use fit_and;

const READ: &[(&str, Kind)] = fit_and!();
const COUNTED: &[(&str, Kind)] = fit_and!(("count", Other));

/// The window end of a fit, and its floats that a stratum sets.
pub const END: usize = 4;
const SINGLETON: usize = 12;
const TAIL: usize = 13;

// ---- drawing

/// Fields as a search leaves them, and presences that do not follow the families.
pub fn ordinary(d: &mut Draw) -> Vec<u64> {
    let (mean, dispersion) = (d.mean(), d.dispersion());
    let mut w = vec![d.family().into(), d.family().into(), d.presence(), d.presence(), d.window(), d.below(2000)];
    let floats = [
        [d.between(0.0, 1.0), d.between(0.0, 1.0), d.between(0.0, 1.0), mean, dispersion].to_vec(),
        [mean - (dispersion - 1.0) + d.between(-1.0, 1.0), d.between(0.3, 1.0), d.octaves(-2, 3), d.octaves(-6, 2)].to_vec(),
        [d.share(), d.alpha(), d.beta(), d.between(1.5, 2.0), d.octaves(8, 30), d.octaves(8, 30), d.octaves(8, 30)].to_vec(),
        [-d.octaves(4, 30), d.octaves(5, 31), d.octaves(0, 20), -d.octaves(-30, 2), -d.octaves(-30, 2), -d.octaves(-30, 2)].to_vec(),
        [d.between(2.0, 25.0), d.between(2.0, 25.0), d.between(2.0, 25.0), d.octaves(8, 30), d.octaves(8, 32)].to_vec(),
    ];
    w.extend(floats.concat().iter().map(|x| x.to_bits()));
    w
}

/// A fit that the Rust's unpack gives.
pub fn unpacked(d: &mut Draw) -> Vec<u64> {
    let p = Problem::ordinary(d);
    side::fit_words(&side::mixture(&p).unpack(&p.theta, d.octaves(4, 24), d.below(2000)))
}

fn counted(d: &mut Draw, fit: fn(&mut Draw) -> Vec<u64>, count: u64) -> Vec<u64> {
    let mut w = fit(d);
    w.push(count);
    w
}

fn ordinary_counted(d: &mut Draw) -> Vec<u64> {
    let count = d.below(3000);
    counted(d, ordinary, count)
}

fn to(d: &mut Draw, end: u64) -> Vec<u64> {
    let mut w = ordinary(d);
    w[END] = end;
    w
}

fn of_unpack() -> Own {
    ordinary_own("fits of unpack", 20_000, unpacked, |w| w.len() == FIT)
}

// ---- the error mode

macro_rules! error_mode {
    ($side:ident, $any_nan:ident, $error_mode:ident) => {
        fn $any_nan(w: &[u64]) -> bool {
            let errors = $side::fit(w).error_params;
            (1..=w[END]).any(|count| errors.log_probability(count as f64).is_nan())
        }

        fn $error_mode(w: &[u64]) -> Vec<u64> {
            match rules::window(w[END]).or_else(|| $any_nan(w).then_some(8)) {
                Some(number) => vec![number, 0],
                None => vec![0, $side::fit(w).error_mode() as u64],
            }
        }
    };
}

error_mode!(side, any_nan, linked_error_mode);
error_mode!(plain, any_plain_nan, plain_error_mode);

/// Counts 1 and 2 as probable as each other, or every count without probability.
fn level(d: &mut Draw) -> Vec<u64> {
    let mut w = ordinary(d);
    let (singleton, tail) = if d.one_in(2) { (0.5, d.octaves(12, 1000)) } else { (0.0, 0.0) };
    w[2] = 0;
    w[SINGLETON] = f64::to_bits(singleton);
    w[TAIL] = f64::to_bits(tail);
    w
}

fn is_level(w: &[u64]) -> bool {
    let errors = side::fit(w).error_params;
    let logs: Vec<f64> = (1..=w[END]).map(|count| errors.log_probability(count as f64)).collect();
    let most = logs.iter().copied().fold(f64::NEG_INFINITY, f64::max);
    logs.iter().filter(|&&log| log == most).count() > 1
}

fn no_tail(d: &mut Draw, end: u64) -> Vec<u64> {
    let mut w = to(d, end);
    w[TAIL] = d.nan().to_bits();
    w
}

fn strata_of_modes() -> Vec<Own> {
    let end = |name: &str, wanted, end| own(name, wanted, move |d| to(d, end), move |w| w[END] == end);
    vec![
        of_unpack(),
        own("equal maxima, the later", 20_000, level, is_level).measured(),
        end("window end 1", 20_000, 1),
        end("window end 2", 20_000, 2),
        own(
            "window end 100 to 1,999",
            2_000,
            |d| {
                let end = 100 + d.below(1900);
                to(d, end)
            },
            |w| w[END] >= 100,
        )
        .measured(),
        end("window end 65,535", 300, 65_535),
        own(
            "refusal 2",
            20_000,
            |d| {
                let end = d.window_too_far();
                to(d, end)
            },
            |w| rules::window(w[END]) == Some(2),
        ),
        end("refusal 5", 20_000, 0),
        own(
            "refusal 8",
            20_000,
            |d| {
                let end = d.window();
                no_tail(d, end)
            },
            |w| rules::window(w[END]).is_none() && any_nan(w),
        ),
        own(
            "refusals 2 and 8",
            5_000,
            |d| {
                let end = d.window_too_far();
                no_tail(d, end)
            },
            |w| rules::window_too_far(w[END]) && float(w, TAIL).is_nan(),
        ),
    ]
}

// ---- heights

fn linked_heights(w: &[u64]) -> Vec<u64> {
    if rules::window_too_far(w[FIT]) {
        return vec![2, 0, 0, 0];
    }
    let heights = side::fit(w).component_heights(w[FIT] as usize);
    [0].into_iter().chain(heights.map(bits)).collect()
}

fn strata_of_heights() -> Vec<Own> {
    let at = |name: &str, count| own(name, 20_000, move |d| counted(d, ordinary, count), move |w| w[FIT] == count);
    vec![
        ordinary_own(
            "fits of unpack",
            20_000,
            |d| {
                let count = 1 + d.below(60);
                counted(d, unpacked, count)
            },
            |w| w[FIT] > 0,
        ),
        at("count 0", 0),
        at("count 1", 1),
        at("count 65,535", 65_535),
        own(
            "refusal 2",
            20_000,
            |d| {
                let count = d.window_too_far();
                counted(d, ordinary, count)
            },
            |w| rules::window_too_far(w[FIT]),
        ),
    ]
}

pub fn calls() -> Vec<Call> {
    vec![
        Call {
            own: vec![of_unpack()],
            unaltered: Some(|w| vec![bits(plain::fit(w).component_total_ratio())]),
            ..call(
                66,
                "component_total_ratio",
                READ,
                Floats,
                ordinary,
                |w| vec![bits(port::component_total_ratio(fit(w)))],
                |w| vec![bits(side::fit(w).component_total_ratio())],
            )
        },
        Call {
            own: vec![of_unpack()],
            ..call(
                67,
                "mode_roundtrip_error",
                READ,
                Floats,
                ordinary,
                |w| vec![bits(port::mode_roundtrip_error(fit(w)))],
                |w| vec![bits(side::fit(w).mode_roundtrip_error())],
            )
        },
        Call {
            own: vec![of_unpack()],
            ..call(
                68,
                "primary_mode",
                READ,
                Answer::Whole,
                ordinary,
                |w| vec![port::primary_mode(fit(w))],
                |w| vec![side::fit(w).primary_mode() as u64],
            )
        },
        Call {
            own: vec![of_unpack()],
            ..call(
                69,
                "repeat_mode",
                READ,
                Answer::Whole,
                ordinary,
                |w| vec![port::repeat_mode(fit(w))],
                |w| vec![side::fit(w).repeat_mode() as u64],
            )
        },
        Call {
            own: strata_of_modes(),
            unaltered: Some(plain_error_mode),
            told: Told::COUNT,
            ..call(
                70,
                "error_mode",
                READ,
                Answer::Given { whole: 1, floats: 0 },
                ordinary,
                |w| {
                    let answer = port::error_mode(fit(w));
                    vec![answer.number.into(), answer.count]
                },
                linked_error_mode,
            )
        },
        Call {
            own: strata_of_heights(),
            unaltered: Some(|w| [0].into_iter().chain(plain::fit(w).component_heights(w[FIT] as usize).map(bits)).collect()),
            ..call(
                71,
                "component_heights",
                COUNTED,
                Answer::Number,
                ordinary_counted,
                |w| {
                    let answer = port::component_heights(fit(w), w[FIT] as usize);
                    vec![answer.number.into(), bits(answer.error), bits(answer.single), bits(answer.repeat)]
                },
                linked_heights,
            )
        },
    ]
}
