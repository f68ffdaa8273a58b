//! Layer 1: the four routines against docs/ROUTINES.md, the rest against Rust's std.

use crate::call::{own, Answer, Call, Kind, Kind::*, Own, Told, EACH_CALL};
use crate::draw::Draw;
use crate::words::{bits, float};
use crate::{port, written};

const X: &[(&str, Kind)] = &[("x", Float)];
const AB: &[(&str, Kind)] = &[("a", Float), ("b", Float)];
const HELD: &[(&str, Kind)] = &[("v", Float), ("bound", Float)];
const I: &[(&str, Kind)] = &[("i", Whole)];

fn plain(
    number: u64,
    name: &'static str,
    arguments: &'static [(&'static str, Kind)],
    ordinary: fn(&mut Draw) -> Vec<u64>,
    ours: fn(&[u64]) -> Vec<u64>,
    theirs: fn(&[u64]) -> Vec<u64>,
) -> Call {
    Call {
        number,
        name,
        arguments,
        answer: Answer::Floats,
        inputs: EACH_CALL,
        ordinary,
        own: vec![],
        ours,
        theirs,
        unaltered: None,
        told: Told::default(),
        open: |_| false,
    }
}

pub fn calls() -> Vec<Call> {
    [routines(), wholes(), picks(), casts(), bounds(), tables()].into_iter().flatten().collect()
}

fn all(_: &[u64]) -> bool {
    true
}

// ---- the four routines

fn steps_of_exp(d: &mut Draw) -> Vec<u64> {
    let k = d.whole(0, 70_000) - 35_000.0;
    let half = d.pick(&[0.0, 0.5]);
    let x = (k + half) * 0.02166084939249829;
    vec![(x + d.between(-1e-9, 1e-9)).to_bits()]
}

fn ends_of_exp(d: &mut Draw) -> Vec<u64> {
    let end = d.pick(&[709.782712893384, -708.3964185322641, -744.4400719213812, -745.1332191019411]);
    vec![(end + d.between(-0.5, 0.5)).to_bits()]
}

fn near_zero(d: &mut Draw) -> Vec<u64> {
    let x = d.octaves(-70, -2);
    vec![d.sign(x).to_bits()]
}

fn near_one(d: &mut Draw) -> Vec<u64> {
    let away = d.octaves(-52, -5);
    vec![(1.0 + d.sign(away)).to_bits()]
}

fn near_small_whole(d: &mut Draw) -> Vec<u64> {
    let away = d.octaves(-50, -3);
    vec![(d.whole(1, 8) + d.sign(away)).to_bits()]
}

fn below_zero(d: &mut Draw) -> Vec<u64> {
    vec![(-d.between(0.0, 200.0)).to_bits()]
}

fn poles(d: &mut Draw) -> Vec<u64> {
    let poles = [d.whole(0, 1 << 20), d.octaves(52, 1000)];
    vec![(-d.pick(&poles)).to_bits()]
}

fn routines() -> Vec<Call> {
    vec![
        Call {
            own: vec![
                own("at and between the steps of ln2/32", 100_000, steps_of_exp, all),
                own("around overflow and underflow", 100_000, ends_of_exp, all),
            ],
            unaltered: Some(|w| vec![bits(float(w, 0).exp())]),
            ..plain(
                1,
                "exp",
                X,
                |d| vec![d.between(-40.0, 10.0).to_bits()],
                |w| vec![bits(port::exp(float(w, 0)))],
                |w| vec![bits(written::exp(float(w, 0)))],
            )
        },
        Call {
            own: vec![own("near 1", 100_000, near_one, all)],
            unaltered: Some(|w| vec![bits(float(w, 0).ln())]),
            ..plain(
                2,
                "ln",
                X,
                |d| vec![d.octaves(-12, 12).to_bits()],
                |w| vec![bits(port::ln(float(w, 0)))],
                |w| vec![bits(written::ln(float(w, 0)))],
            )
        },
        Call {
            own: vec![
                own("at and between the steps of ln2/32", 100_000, steps_of_exp, all),
                own("around overflow and underflow", 50_000, ends_of_exp, all),
                own("near 0", 100_000, near_zero, all),
            ],
            unaltered: Some(|w| vec![bits(float(w, 0).exp_m1())]),
            ..plain(
                3,
                "expm1",
                X,
                |d| vec![d.between(-40.0, 10.0).to_bits()],
                |w| vec![bits(port::expm1(float(w, 0)))],
                |w| vec![bits(written::expm1(float(w, 0)))],
            )
        },
        Call {
            own: vec![
                own("near 1 to 8", 100_000, near_small_whole, all),
                own("below 0", 100_000, below_zero, |w| float(w, 0) < 0.0),
                own("0 and the negative whole numbers", 20_000, poles, |w| float(w, 0) <= 0.0 && float(w, 0).fract() == 0.0),
            ],
            unaltered: Some(|w| vec![bits(libm::lgamma(float(w, 0)))]),
            ..plain(
                4,
                "lgamma",
                X,
                |d| vec![d.octaves(-3, 11).to_bits()],
                |w| vec![bits(port::lgamma(float(w, 0)))],
                |w| vec![bits(written::lgamma(float(w, 0)))],
            )
        },
    ]
}

// ---- rounding

fn halves(d: &mut Draw) -> Vec<u64> {
    let x = d.whole(0, 1 << 30) + 0.5;
    vec![d.sign(x).to_bits()]
}

fn beside_halves(d: &mut Draw) -> Vec<u64> {
    let half = d.whole(0, 1 << 20) / 2.0;
    let x = d.beside(half, 2);
    vec![d.sign(x).to_bits()]
}

fn nearly_whole_by_size(d: &mut Draw) -> Vec<u64> {
    let x = d.octaves(49, 53);
    vec![d.sign(x).to_bits()]
}

fn strata_of_rounding() -> Vec<Own> {
    vec![
        own("halves", 100_000, halves, |w| float(w, 0).fract().abs() == 0.5),
        own("beside wholes and halves", 100_000, beside_halves, all),
        own("2^49 to 2^54", 100_000, nearly_whole_by_size, all),
    ]
}

fn wholes() -> Vec<Call> {
    vec![
        Call {
            own: strata_of_rounding(),
            ..plain(
                5,
                "round",
                X,
                |d| vec![d.between(-3000.0, 3000.0).to_bits()],
                |w| vec![bits(port::round(float(w, 0)))],
                |w| vec![bits(float(w, 0).round())],
            )
        },
        Call {
            own: strata_of_rounding(),
            ..plain(
                6,
                "floor",
                X,
                |d| vec![d.between(-3000.0, 3000.0).to_bits()],
                |w| vec![bits(port::floor(float(w, 0)))],
                |w| vec![bits(float(w, 0).floor())],
            )
        },
    ]
}

// ---- maximum and minimum

fn two_logs(d: &mut Draw) -> Vec<u64> {
    vec![d.log().to_bits(), d.log().to_bits()]
}

fn level(d: &mut Draw) -> Vec<u64> {
    let x = d.any();
    vec![x.to_bits(), x.to_bits()]
}

fn zeros(d: &mut Draw) -> Vec<u64> {
    vec![d.sign(0.0).to_bits(), d.sign(0.0).to_bits()]
}

/// +0 and -0: Rust may answer either.
fn zero_of_each_sign(w: &[u64]) -> bool {
    float(w, 0) == 0.0 && float(w, 1) == 0.0 && w[0] != w[1]
}

fn strata_of_picks() -> Vec<Own> {
    vec![own("level", 50_000, level, |w| w[0] == w[1]), own("two zeros", 10_000, zeros, |w| float(w, 0) == 0.0 && float(w, 1) == 0.0)]
}

fn picks() -> Vec<Call> {
    vec![
        Call {
            own: strata_of_picks(),
            open: zero_of_each_sign,
            ..plain(
                7,
                "max",
                AB,
                two_logs,
                |w| vec![bits(port::max(float(w, 0), float(w, 1)))],
                |w| vec![bits(float(w, 0).max(float(w, 1)))],
            )
        },
        Call {
            own: strata_of_picks(),
            open: zero_of_each_sign,
            ..plain(
                8,
                "min",
                AB,
                two_logs,
                |w| vec![bits(port::min(float(w, 0), float(w, 1)))],
                |w| vec![bits(float(w, 0).min(float(w, 1)))],
            )
        },
        Call {
            answer: Answer::Whole,
            ..plain(
                9,
                "is_finite",
                X,
                |d| vec![d.log().to_bits()],
                |w| vec![port::is_finite(float(w, 0)).into()],
                |w| vec![float(w, 0).is_finite().into()],
            )
        },
    ]
}

// ---- casts

fn beside_ends_of_casts(d: &mut Draw) -> Vec<u64> {
    let end = d.pick(&[1.0, 4294967296.0, 9223372036854775808.0, 18446744073709551616.0]);
    let x = d.beside(end, 100);
    vec![d.sign(x).to_bits()]
}

fn strata_of_casts() -> Vec<Own> {
    vec![
        own("beside wholes and halves", 100_000, beside_halves, all),
        own("around 1, 2^32, 2^63 and 2^64", 100_000, beside_ends_of_casts, all),
        own("2^49 to 2^54", 50_000, nearly_whole_by_size, all),
    ]
}

fn casts() -> Vec<Call> {
    vec![
        Call {
            answer: Answer::Whole,
            own: strata_of_casts(),
            ..plain(
                10,
                "to_u64",
                X,
                |d| vec![d.octaves(-2, 66).to_bits()],
                |w| vec![port::to_u64(float(w, 0))],
                |w| vec![float(w, 0) as u64],
            )
        },
        Call {
            answer: Answer::Whole,
            own: strata_of_casts(),
            ..plain(
                11,
                "to_u32",
                X,
                |d| vec![d.octaves(-2, 34).to_bits()],
                |w| vec![port::to_u32(float(w, 0)).into()],
                |w| vec![(float(w, 0) as u32).into()],
            )
        },
        plain(
            12,
            "from_u64",
            &[("n", Whole)],
            |d| vec![d.word() >> d.below(64)],
            |w| vec![bits(port::from_u64(w[0]))],
            |w| vec![bits(w[0] as f64)],
        ),
    ]
}

// ---- what the routines are made of

fn bounds() -> Vec<Call> {
    vec![
        Call {
            own: vec![own("level", 50_000, level, |w| w[0] == w[1])],
            ..plain(
                13,
                "at_least",
                HELD,
                two_logs,
                |w| vec![bits(port::at_least(float(w, 0), float(w, 1)))],
                |w| vec![bits(written::held_above(float(w, 0), float(w, 1)))],
            )
        },
        Call {
            own: vec![own("level", 50_000, level, |w| w[0] == w[1])],
            ..plain(
                14,
                "at_most",
                HELD,
                two_logs,
                |w| vec![bits(port::at_most(float(w, 0), float(w, 1)))],
                |w| vec![bits(written::held_below(float(w, 0), float(w, 1)))],
            )
        },
        plain(
            15,
            "tail",
            &[("r", Float)],
            |d| vec![d.between(-0.011, 0.011).to_bits()],
            |w| vec![bits(port::tail(float(w, 0)))],
            |w| vec![bits(written::exp_tail(float(w, 0)))],
        ),
    ]
}

fn pair(p: port::Pair) -> Vec<u64> {
    vec![bits(p.first), bits(p.second)]
}

/// Document 01's error starts: tail exponent, singleton probability, shape.
const PARETO: [f64; 6] = [1.5, 0.8, 0.0, 2.5, 0.95, 0.0];
const WEIBULL: [f64; 9] = [1.5, 0.8, 0.05, 2.5, 0.9, 0.5, 2.0, 0.95, 1.0];

fn entry(starts: &[f64], i: u64) -> Vec<u64> {
    vec![bits(starts.get(i as usize).copied().unwrap_or(0.0))]
}

fn tables() -> Vec<Call> {
    vec![
        plain(16, "power_at", I, |d| vec![d.below(64)], |w| pair(port::power_at(w[0])), |w| written::power(w[0]).map(bits).to_vec()),
        plain(
            17,
            "piece_at",
            I,
            |d| vec![d.below(256)],
            |w| pair(port::piece_at(w[0])),
            |w| written::piece(w[0])[..2].iter().map(|&x| bits(x)).collect(),
        ),
        plain(
            18,
            "log_at",
            I,
            |d| vec![d.below(256)],
            |w| pair(port::log_at(w[0])),
            |w| written::piece(w[0])[2..].iter().map(|&x| bits(x)).collect(),
        ),
        plain(19, "pareto_starts", I, |d| vec![d.below(8)], |w| vec![bits(port::pareto_start(w[0] as usize))], |w| entry(&PARETO, w[0])),
        plain(
            20,
            "weibull_starts",
            I,
            |d| vec![d.below(12)],
            |w| vec![bits(port::weibull_start(w[0] as usize))],
            |w| entry(&WEIBULL, w[0]),
        ),
    ]
}
