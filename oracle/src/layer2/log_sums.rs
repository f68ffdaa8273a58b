use super::{call, words};
use crate::call::{own, Answer::Floats, Call, Kind, Kind::Float};
use crate::draw::Draw;
use crate::linked::math_helpers as linked;
use crate::port;
use crate::unaltered::math_helpers as unaltered;
use crate::words::{bits, float};

const TWO: &[(&str, Kind)] = &[("a", Float), ("b", Float)];
const THREE: &[(&str, Kind)] = &[("a", Float), ("b", Float), ("c", Float)];
const HIGH_LOW: &[(&str, Kind)] = &[("high", Float), ("low", Float)];

fn two(d: &mut Draw) -> Vec<u64> {
    words(&[d.log(), d.log()])
}

fn two_level(d: &mut Draw) -> Vec<u64> {
    let a = d.log();
    words(&[a, d.pick(&[a, a * (1.0 + f64::EPSILON), a + 1e-12])])
}

fn two_far(d: &mut Draw) -> Vec<u64> {
    let a = d.log();
    let b = a - d.between(700.0, 800.0);
    d.pick(&[[a, b], [b, a]]).map(f64::to_bits).to_vec()
}

fn two_nan_and_minus_infinity(d: &mut Draw) -> Vec<u64> {
    let nan = d.nan();
    d.pick(&[[nan, f64::NEG_INFINITY], [f64::NEG_INFINITY, nan]]).map(f64::to_bits).to_vec()
}

fn nan_beside_minus_infinity(w: &[u64]) -> bool {
    w.iter().any(|&x| f64::from_bits(x).is_nan()) && w.contains(&f64::NEG_INFINITY.to_bits())
}

fn zeros(d: &mut Draw) -> Vec<u64> {
    words(&[d.sign(0.0), d.sign(0.0)])
}

fn three(d: &mut Draw) -> Vec<u64> {
    words(&[d.log(), d.log(), d.log()])
}

fn three_level(d: &mut Draw) -> Vec<u64> {
    let a = d.log();
    let near = [a, a, a * (1.0 + f64::EPSILON), a - 1e-12, a - 800.0];
    words(&[d.pick(&near), d.pick(&near), d.pick(&near)])
}

fn three_nan_and_minus_infinity(d: &mut Draw) -> Vec<u64> {
    let from = [d.nan(), f64::NEG_INFINITY, d.log()];
    words(&[d.pick(&from), d.pick(&from), d.pick(&from)])
}

fn three_zeros(d: &mut Draw) -> Vec<u64> {
    words(&[d.sign(0.0), d.sign(0.0), d.sign(0.0)])
}

/// As the fit has them: the error's logit is 0.
fn logits(d: &mut Draw) -> Vec<u64> {
    words(&[0.0, d.between(-12.0, 12.0), d.between(-12.0, 12.0)])
}

fn high_low(d: &mut Draw) -> Vec<u64> {
    let high = d.log();
    words(&[high, high - d.octaves(-30, 8)])
}

fn low_above(d: &mut Draw) -> Vec<u64> {
    let high = d.log();
    words(&[high, high + d.octaves(-30, 8)])
}

fn high_minus_infinity(d: &mut Draw) -> Vec<u64> {
    words(&[f64::NEG_INFINITY, d.any()])
}

fn far_out(d: &mut Draw) -> Vec<u64> {
    let x = d.between(30.0, 760.0);
    words(&[d.sign(x)])
}

fn softmax(logs: (f64, f64, f64)) -> Vec<u64> {
    vec![bits(logs.0), bits(logs.1), bits(logs.2)]
}

fn all(_: &[u64]) -> bool {
    true
}

pub fn calls() -> Vec<Call> {
    vec![
        Call {
            own: vec![
                own("level or nearly", 100_000, two_level, all),
                own("far apart", 50_000, two_far, all),
                own("NaN beside -inf", 10_000, two_nan_and_minus_infinity, nan_beside_minus_infinity),
                own("zeros of either sign", 10_000, zeros, all),
            ],
            unaltered: Some(|w| vec![bits(unaltered::lse2(float(w, 0), float(w, 1)))]),
            ..call(
                32,
                "lse2",
                TWO,
                Floats,
                two,
                |w| vec![bits(port::lse2(float(w, 0), float(w, 1)))],
                |w| vec![bits(linked::lse2(float(w, 0), float(w, 1)))],
            )
        },
        Call {
            own: vec![
                own("level or nearly", 100_000, three_level, all),
                own("NaN beside -inf", 10_000, three_nan_and_minus_infinity, nan_beside_minus_infinity),
                own("zeros of either sign", 10_000, three_zeros, all),
            ],
            unaltered: Some(|w| vec![bits(unaltered::lse3(float(w, 0), float(w, 1), float(w, 2)))]),
            ..call(
                33,
                "lse3",
                THREE,
                Floats,
                three,
                |w| vec![bits(port::lse3(float(w, 0), float(w, 1), float(w, 2)))],
                |w| vec![bits(linked::lse3(float(w, 0), float(w, 1), float(w, 2)))],
            )
        },
        Call {
            own: vec![
                own("level or nearly", 100_000, three_level, all),
                own("NaN beside -inf", 10_000, three_nan_and_minus_infinity, nan_beside_minus_infinity),
            ],
            unaltered: Some(|w| softmax(unaltered::ln_softmax3(float(w, 0), float(w, 1), float(w, 2)))),
            ..call(
                34,
                "ln_softmax3",
                THREE,
                Floats,
                logits,
                |w| {
                    let logs = port::ln_softmax3(float(w, 0), float(w, 1), float(w, 2));
                    softmax((logs.first, logs.second, logs.third))
                },
                |w| softmax(linked::ln_softmax3(float(w, 0), float(w, 1), float(w, 2))),
            )
        },
        Call {
            own: vec![
                own("low above high", 50_000, low_above, |w| float(w, 1) > float(w, 0)),
                own("level or nearly", 50_000, two_level, all),
                own("high -inf, low any", 20_000, high_minus_infinity, all),
            ],
            unaltered: Some(|w| vec![bits(unaltered::ln_sub_exp(float(w, 0), float(w, 1)))]),
            ..call(
                35,
                "ln_sub_exp",
                HIGH_LOW,
                Floats,
                high_low,
                |w| vec![bits(port::ln_sub_exp(float(w, 0), float(w, 1)))],
                |w| vec![bits(linked::ln_sub_exp(float(w, 0), float(w, 1)))],
            )
        },
        Call {
            own: vec![own("far out", 100_000, far_out, all)],
            unaltered: Some(|w| vec![bits(unaltered::sigmoid(float(w, 0)))]),
            ..call(
                36,
                "sigmoid",
                &[("value", Float)],
                Floats,
                |d| words(&[d.between(-40.0, 40.0)]),
                |w| vec![bits(port::sigmoid(float(w, 0)))],
                |w| vec![bits(linked::sigmoid(float(w, 0)))],
            )
        },
    ]
}
