//! The error component.

use super::rust::{linked as side, unaltered as plain};
use super::{call, words};
use crate::call::{ordinary_own, own, Answer, Answer::Floats, Call, Kind, Kind::*, Own};
use crate::draw::Draw;
use crate::words::{bits, errors, float};
use crate::{port, rules};

const PROBABILITY: &[(&str, Kind)] =
    &[("singleton_probability", Float), ("tail_exponent", Float), ("weibull_shape", Float), ("count", Float), ("shape_present", Other)];
const MASS: &[(&str, Kind)] =
    &[("singleton_probability", Float), ("tail_exponent", Float), ("weibull_shape", Float), ("top", Other), ("shape_present", Other)];

fn tail(d: &mut Draw) -> [f64; 3] {
    [d.between(0.0, 1.0), d.octaves(-2, 3), d.octaves(-6, 2)]
}

fn at(d: &mut Draw, count: f64) -> Vec<u64> {
    let [singleton, exponent, shape] = tail(d);
    let mut w = words(&[singleton, exponent, shape, count]);
    w.push(d.presence());
    w
}

fn probability(d: &mut Draw) -> Vec<u64> {
    let count = d.whole(1, 3000);
    at(d, count)
}

fn to(d: &mut Draw, top: u64) -> Vec<u64> {
    let mut w = at(d, 0.0);
    w[3] = top;
    w
}

fn mass(d: &mut Draw) -> Vec<u64> {
    let top = d.window();
    to(d, top)
}

fn strata_of_probabilities() -> Vec<Own> {
    vec![
        ordinary_own("count 1", 20_000, |d| at(d, 1.0), |w| float(w, 3) == 1.0),
        ordinary_own("count 2", 20_000, |d| at(d, 2.0), |w| float(w, 3) == 2.0),
        own(
            "count 0 to 3, any fraction",
            50_000,
            |d| {
                let count = d.between(0.0, 3.0);
                at(d, count)
            },
            |w| float(w, 3) < 3.0,
        ),
        own(
            "singleton probability 0 or 1, tail exponent 0",
            20_000,
            |d| {
                let mut w = probability(d);
                w[0] = f64::to_bits(d.pick(&[0.0, 1.0, -0.0]));
                w[1] = f64::to_bits(d.pick(&[0.0, 1.0]));
                w
            },
            |w| float(w, 0) == 0.0 || float(w, 0) == 1.0,
        ),
        own(
            "shape 0",
            20_000,
            |d| {
                let mut w = probability(d);
                w[2] = d.sign(0.0).to_bits();
                w[4] = d.present();
                w
            },
            |w| float(w, 2) == 0.0 && w[4] != 0,
        ),
    ]
}

fn strata_of_masses() -> Vec<Own> {
    let top = |name: &str, top| ordinary_own(name, 20_000, move |d| to(d, top), move |w| w[3] == top);
    vec![
        top("window end 1", 1),
        top("window end 2", 2),
        top("window end 65,535", 65_535),
        own(
            "no mass in the window",
            20_000,
            |d| {
                let mut w = to(d, 1);
                w[0] = d.sign(0.0).to_bits();
                w
            },
            |w| float(w, 0) == 0.0 && w[3] == 1,
        ),
    ]
}

fn refused() -> Vec<Own> {
    vec![
        own(
            "refusal 2",
            20_000,
            |d| {
                let top = d.window_too_far();
                to(d, top)
            },
            |w| rules::window(w[3]) == Some(2),
        ),
        own("refusal 5", 20_000, |d| to(d, 0), |w| rules::window(w[3]) == Some(5)),
    ]
}

pub fn calls() -> Vec<Call> {
    vec![
        Call {
            own: strata_of_probabilities(),
            unaltered: Some(|w| vec![bits(plain::errors(w, w[4], 0).log_probability(float(w, 3)))]),
            ..call(
                73,
                "log_probability",
                PROBABILITY,
                Floats,
                probability,
                |w| vec![bits(port::log_probability(errors(w, w[4], 0), float(w, 3)))],
                |w| vec![bits(side::errors(w, w[4], 0).log_probability(float(w, 3)))],
            )
        },
        Call {
            own: [strata_of_masses(), refused()].into_iter().flatten().collect(),
            unaltered: Some(|w| vec![0, bits(plain::errors(w, w[4], 0).log_window_mass(w[3] as usize))]),
            ..call(
                74,
                "log_window_mass",
                MASS,
                Answer::Number,
                mass,
                |w| {
                    let answer = port::log_window_mass(errors(w, w[4], 0), w[3] as usize);
                    vec![answer.number.into(), bits(answer.value)]
                },
                |w| match rules::window(w[3]) {
                    Some(number) => vec![number, 0],
                    None => vec![0, bits(side::errors(w, w[4], 0).log_window_mass(w[3] as usize))],
                },
            )
        },
    ]
}
