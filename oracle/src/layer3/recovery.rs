//! A bin as the sample had it: the scale in use, and the quotient.

use super::call;
use crate::call::{own, Answer::Floats, Answer::Whole as AnswerWhole, Call, Kind, Kind::*};
use crate::draw::Draw;
use crate::words::{bits, float};
use crate::{port, rules};

const SCALE: &[(&str, Kind)] = &[("scale", Float)];
const QUOTIENT: &[(&str, Kind)] = &[("divisor", Float), ("n", Other)];

fn scale(d: &mut Draw) -> f64 {
    match d.below(4) {
        0 => 1.0,
        1 => d.pick(&[2.0, 2.5, 3.0, 1.1, 1e9]),
        2 => d.whole(2, 40),
        _ => d.between(1.0, 40.0),
    }
}

/// A bin of any size, and often 0.
fn bin(d: &mut Draw) -> u64 {
    match d.below(4) {
        0 => 0,
        1 => d.below(50),
        2 => d.below(1 << 32),
        _ => d.below(1 << 20),
    }
}

fn quotient(d: &mut Draw) -> Vec<u64> {
    vec![scale(d).to_bits(), bin(d)]
}

/// A quotient that is a half, or beside one: an odd multiple of half the divisor.
fn half(d: &mut Draw) -> Vec<u64> {
    let divisor = 2.0 * d.whole(1, 500);
    let n = (divisor / 2.0) as u64 * (2 * d.below(2000) + 1) + d.below(3) - 1;
    vec![divisor.to_bits(), n]
}

fn is_half(w: &[u64]) -> bool {
    ((w[1] as f64 / float(w, 0)).fract() - 0.5).abs() < 0.51 / float(w, 0)
}

pub fn calls() -> Vec<Call> {
    vec![
        call(
            81,
            "used_scale",
            SCALE,
            Floats,
            |d| vec![d.between(0.0, 3.0).to_bits()],
            |w| vec![bits(port::used_scale(float(w, 0)))],
            |w| vec![bits(rules::used(float(w, 0)))],
        ),
        Call {
            own: vec![own("halves and beside them", 200_000, half, is_half)],
            ..call(
                82,
                "rounded_quotient",
                QUOTIENT,
                AnswerWhole,
                quotient,
                |w| vec![port::rounded_quotient(w[1] as u32, float(w, 0)).into()],
                |w| vec![rules::recovered(w[1] as u32, float(w, 0)).into()],
            )
        },
    ]
}
