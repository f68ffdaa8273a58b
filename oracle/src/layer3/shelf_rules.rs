//! What a shelf may be.

use super::rust::linked as side;
use super::{call, words};
use crate::call::{own, Answer, Answer::Floats, Call, Kind, Kind::*, Own};
use crate::draw::Draw;
use crate::linked::models as linked;
use crate::port;
use crate::words::{bits, float, shelf};

const SHELF: &[(&str, Kind)] = &[("share", Float), ("alpha", Float), ("beta", Float)];
const RETAINED: &[(&str, Kind)] = &[("retained", Float)];

/// From a retained fraction and a concentration within their bounds.
fn ordinary(d: &mut Draw) -> Vec<u64> {
    let (retained, concentration) = (d.between(0.3, 1.0), d.between(3.4, 20.0));
    words(&[d.share(), retained * concentration, (1.0 - retained) * concentration])
}

/// One of the eight tests at or beside its limit.
fn beside_a_limit(d: &mut Draw) -> Vec<u64> {
    let mut s = [d.share(), d.between(3.0, 9.0), d.between(3.0, 9.0)];
    let slack = 1e-9;
    let near = |d: &mut Draw, x: f64| d.beside(x, 3);
    match d.below(6) {
        0 => s[0] = d.pick(&[0.0, -0.0, 5e-324, 1e-300]),
        1 => s[0] = near(d, 0.5),
        2 => s[1] = near(d, 1.0 - slack),
        3 => s[2] = d.pick(&[0.0, -0.0, 5e-324, 1e-300]),
        4 => {
            s[1] = (0.3 - slack) * 10.0;
            s[2] = near(d, 10.0 - s[1]);
        }
        _ => {
            s[1] = 10.0;
            s[2] = near(d, 10.0 + slack);
        }
    }
    words(&s)
}

/// Alpha at or beside its limit, in a shelf that is valid otherwise.
fn alpha_decides(d: &mut Draw) -> Vec<u64> {
    words(&[d.between(0.01, 0.49), d.beside(1.0 - 1e-9, 3), d.between(0.5, 2.0)])
}

fn limits() -> Vec<Own> {
    vec![own("beside a limit", 300_000, beside_a_limit, |_| true)]
}

fn valid(w: &[u64]) -> bool {
    linked::shelf_is_valid(side::shelf(w, 0))
}

pub fn calls() -> Vec<Call> {
    let judged = vec![
        own("valid", 50_000, ordinary, valid),
        own("valid beside a limit", 20_000, beside_a_limit, valid),
        own("invalid beside a limit", 20_000, beside_a_limit, |w| !valid(w)),
        // no row of it is in the sample, which is older
        own("alpha beside its limit, the rest valid", 20_000, alpha_decides, |w| float(w, 0) < 0.5).long(),
    ];
    vec![
        Call {
            own: limits(),
            ..call(
                76,
                "retained",
                SHELF,
                Floats,
                ordinary,
                |w| vec![bits(port::retained(shelf(w, 0)))],
                |w| vec![bits(side::shelf(w, 0).retained())],
            )
        },
        Call {
            own: limits(),
            ..call(
                77,
                "concentration",
                SHELF,
                Floats,
                ordinary,
                |w| vec![bits(port::concentration(shelf(w, 0)))],
                |w| vec![bits(side::shelf(w, 0).concentration())],
            )
        },
        call(
            78,
            "shelf_concentration_bounds",
            RETAINED,
            Floats,
            |d| words(&[d.between(0.0, 1.0)]),
            |w| {
                let bounds = port::shelf_concentration_bounds(float(w, 0));
                vec![bits(bounds.first), bits(bounds.second)]
            },
            |w| {
                let (low, high) = linked::shelf_concentration_bounds(float(w, 0));
                vec![bits(low), bits(high)]
            },
        ),
        Call {
            own: [limits(), judged].into_iter().flatten().collect(),
            ..call(
                80,
                "shelf_is_valid",
                SHELF,
                Answer::Whole,
                ordinary,
                |w| vec![port::shelf_is_valid(shelf(w, 0)).into()],
                |w| vec![valid(w).into()],
            )
        },
    ]
}
