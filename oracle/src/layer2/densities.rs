use super::{call, linked_shelf, unaltered_shelf, words};
use crate::call::{ordinary_own, own, Answer, Answer::Floats, Call, Kind, Kind::*};
use crate::draw::Draw;
use crate::linked::math_helpers as linked;
use crate::linked::{lgamma, Routines};
use crate::port;
use crate::unaltered::math_helpers as unaltered;
use crate::words::{bits, float, shelf};

const LOBE: &[(&str, Kind)] = &[("mean", Float), ("dispersion", Float)];
const AT: &[(&str, Kind)] = &[("x", Float), ("mean", Float), ("dispersion", Float)];
const BETABINOM: &[(&str, Kind)] = &[("x", Float), ("trials", Float), ("alpha", Float), ("beta", Float)];
const SINGLE: &[(&str, Kind)] =
    &[("count", Float), ("mean", Float), ("dispersion", Float), ("present", Other), ("share", Float), ("alpha", Float), ("beta", Float)];
const PREPARED: &[(&str, Kind)] = &[
    ("poisson", Other),
    ("mean", Float),
    ("rate", Float),
    ("size", Float),
    ("gamma", Float),
    ("start", Float),
    ("slope", Float),
    ("x", Float),
];

fn all(_: &[u64]) -> bool {
    true
}

// ---- lobes

fn lobe(d: &mut Draw) -> Vec<u64> {
    words(&[d.mean(), d.dispersion()])
}

fn lobe_nearly_poisson(d: &mut Draw) -> Vec<u64> {
    words(&[d.mean(), d.nearly_poisson()])
}

fn at(d: &mut Draw) -> Vec<u64> {
    words(&[d.count(), d.mean(), d.dispersion()])
}

fn at_nearly_poisson(d: &mut Draw) -> Vec<u64> {
    words(&[d.count(), d.mean(), d.nearly_poisson()])
}

fn at_little_dispersion(d: &mut Draw) -> Vec<u64> {
    words(&[d.count(), d.mean(), d.little_dispersion()])
}

fn nearly_poisson(dispersion: f64) -> bool {
    (dispersion - (1.0 + 1e-9)).abs() < 1e-14
}

fn little(dispersion: f64) -> bool {
    dispersion > 1.0 + 1e-9 && dispersion < 1.001
}

fn mode_at_a_whole(d: &mut Draw) -> Vec<u64> {
    let dispersion = d.dispersion();
    let mean = d.whole(0, 1000) + (dispersion - 1.0);
    words(&[d.beside(mean, 2), dispersion])
}

fn mode_too_far(d: &mut Draw) -> Vec<u64> {
    let mean = d.pick(&[9223372036854775808.0, 18446744073709551616.0]);
    words(&[d.beside(mean, 3), d.dispersion()])
}

/// The Rust's expressions, with what does not change with x worked out before.
fn lobe_of(mean: f64, dispersion: f64) -> [u64; 7] {
    if dispersion <= 1.0 + 1e-9 {
        return [1, bits(mean), bits(mean.fog_ln()), 0, 0, 0, 0];
    }
    let r = mean / (dispersion - 1.0);
    let start = r * (-dispersion.fog_ln());
    let slope = (1.0 - 1.0 / dispersion).fog_ln();
    [0, bits(mean), 0, bits(r), bits(lgamma(r)), bits(start), bits(slope)]
}

fn density(w: &[u64]) -> f64 {
    let x = float(w, 7);
    if w[0] != 0 {
        return x * float(w, 2) - lgamma(x + 1.0) - float(w, 1);
    }
    lgamma(x + float(w, 3)) - lgamma(x + 1.0) - float(w, 4) + float(w, 5) + x * float(w, 6)
}

fn prepared(d: &mut Draw) -> Vec<u64> {
    let mut w = lobe_of(d.mean(), d.dispersion()).to_vec();
    w.push(d.count().to_bits());
    w
}

fn prepared_freely(d: &mut Draw) -> Vec<u64> {
    let mut w = vec![d.below(2)];
    w.extend((0..7).map(|_| d.log().to_bits()));
    w
}

fn port_lobe(w: &[u64]) -> port::Lobe {
    port::Lobe {
        poisson: w[0] as u8,
        mean: float(w, 1),
        rate: float(w, 2),
        size: float(w, 3),
        gamma: float(w, 4),
        start: float(w, 5),
        slope: float(w, 6),
    }
}

fn lobes() -> Vec<Call> {
    vec![
        Call {
            unaltered: Some(|w| vec![bits(unaltered::ln_dpois(float(w, 0), float(w, 1)))]),
            ..call(
                37,
                "ln_dpois",
                &[("x", Float), ("lambda", Float)],
                Floats,
                |d| words(&[d.count(), d.mean()]),
                |w| vec![bits(port::ln_dpois(float(w, 0), float(w, 1)))],
                |w| vec![bits(linked::ln_dpois(float(w, 0), float(w, 1)))],
            )
        },
        Call {
            own: vec![
                ordinary_own("dispersion around 1 + 1e-9", 50_000, at_nearly_poisson, |w| nearly_poisson(float(w, 2))),
                ordinary_own("dispersion 1 + 1e-9 to 1.001", 50_000, at_little_dispersion, |w| little(float(w, 2))),
            ],
            unaltered: Some(|w| vec![bits(unaltered::ln_dnbinom(float(w, 0), float(w, 1), float(w, 2)))]),
            ..call(
                38,
                "ln_dnbinom",
                AT,
                Floats,
                at,
                |w| vec![bits(port::ln_dnbinom(float(w, 0), float(w, 1), float(w, 2)))],
                |w| vec![bits(linked::ln_dnbinom(float(w, 0), float(w, 1), float(w, 2)))],
            )
        },
        Call {
            own: vec![own("dispersion around 1 + 1e-9", 100_000, lobe_nearly_poisson, |w| nearly_poisson(float(w, 1)))],
            ..call(
                39,
                "lobe_of",
                LOBE,
                Answer::Flagged,
                lobe,
                |w| {
                    let l = port::lobe_of(float(w, 0), float(w, 1));
                    let floats = [l.mean, l.rate, l.size, l.gamma, l.start, l.slope].map(bits);
                    [&[u64::from(l.poisson)], &floats[..]].concat()
                },
                |w| lobe_of(float(w, 0), float(w, 1)).to_vec(),
            )
        },
        Call {
            own: vec![own("fields of no lobe", 100_000, prepared_freely, all)],
            ..call(
                40,
                "density",
                PREPARED,
                Floats,
                prepared,
                |w| vec![bits(port::density(port_lobe(w), float(w, 7)))],
                |w| vec![bits(density(w))],
            )
        },
        Call {
            own: vec![
                own("mode at or beside a whole number", 100_000, mode_at_a_whole, all),
                own("mode around 2^63 and 2^64", 50_000, mode_too_far, all),
            ],
            ..call(
                41,
                "discrete_nb_mode",
                LOBE,
                Answer::Whole,
                lobe,
                |w| vec![port::discrete_nb_mode(float(w, 0), float(w, 1))],
                |w| vec![linked::discrete_nb_mode(float(w, 0), float(w, 1)) as u64],
            )
        },
    ]
}

// ---- the shelf's densities

fn trials_halves(d: &mut Draw) -> Vec<u64> {
    let half = d.whole(0, 2000) / 2.0;
    let mean = d.beside(half, 2);
    words(&[d.sign(mean)])
}

fn betabinom(d: &mut Draw) -> Vec<u64> {
    let trials = d.whole(1, 2000);
    words(&[d.whole(0, trials as u64), trials, d.alpha(), d.beta()])
}

fn beside_the_trials(d: &mut Draw) -> Vec<u64> {
    let trials = d.whole(1, 2000);
    let x = trials + d.pick(&[-1.0, -0.5, 0.0, 0.5, 1.0]);
    words(&[d.beside(x, 1), trials, d.alpha(), d.beta()])
}

fn single(d: &mut Draw) -> Vec<u64> {
    let mean = d.mean();
    let most = mean as u64 + 2;
    let count = if d.one_in(4) { d.count() } else { d.whole(0, most) };
    let present = d.presence();
    let mut w = words(&[count, mean, d.dispersion(), 0.0, d.share(), d.alpha(), d.beta()]);
    w[3] = present;
    w
}

fn single_without(d: &mut Draw) -> Vec<u64> {
    let mut w = single(d);
    w[3] = 0;
    w
}

fn single_with(d: &mut Draw) -> Vec<u64> {
    let mut w = single(d);
    w[3] = d.present();
    w
}

fn single_beside_the_trials(d: &mut Draw) -> Vec<u64> {
    let mut w = single_with(d);
    let trials = float(&w, 1).round().max(1.0);
    w[0] = (trials + d.pick(&[-1.0, -0.5, 0.0, 0.5, 1.0])).to_bits();
    w
}

fn single_nearly_poisson(d: &mut Draw) -> Vec<u64> {
    let mut w = single(d);
    w[2] = d.nearly_poisson().to_bits();
    w
}

fn shelves() -> Vec<Call> {
    vec![
        Call {
            own: vec![own("at and beside halves", 100_000, trials_halves, all)],
            ..call(
                44,
                "shelf_trials",
                &[("mean", Float)],
                Floats,
                |d| words(&[d.mean()]),
                |w| vec![bits(port::shelf_trials(float(w, 0)))],
                |w| vec![bits(linked::shelf_trials(float(w, 0)))],
            )
        },
        Call {
            own: vec![own("x around the trials", 100_000, beside_the_trials, |w| (float(w, 0) - float(w, 1)).abs() < 1.5)],
            unaltered: Some(|w| vec![bits(unaltered::ln_dbetabinom(float(w, 0), float(w, 1), float(w, 2), float(w, 3)))]),
            ..call(
                45,
                "ln_dbetabinom",
                BETABINOM,
                Floats,
                betabinom,
                |w| vec![bits(port::ln_dbetabinom(float(w, 0), float(w, 1), float(w, 2), float(w, 3)))],
                |w| vec![bits(linked::ln_dbetabinom(float(w, 0), float(w, 1), float(w, 2), float(w, 3)))],
            )
        },
        Call {
            own: vec![
                ordinary_own("no shelf", 50_000, single_without, |w| w[3] == 0),
                ordinary_own("shelf", 50_000, single_with, |w| w[3] != 0),
                own("count around the trials", 100_000, single_beside_the_trials, |w| w[3] != 0),
                ordinary_own("dispersion around 1 + 1e-9", 50_000, single_nearly_poisson, |w| nearly_poisson(float(w, 2))),
            ],
            unaltered: Some(|w| {
                let shelf = (w[3] != 0).then(|| unaltered_shelf(w, 4));
                vec![bits(unaltered::ln_single_copy(float(w, 0), float(w, 1), float(w, 2), shelf))]
            }),
            ..call(
                47,
                "ln_single_copy",
                SINGLE,
                Floats,
                single,
                |w| vec![bits(port::ln_single_copy(float(w, 0), float(w, 1), float(w, 2), w[3] as u8, shelf(w, 4)))],
                |w| {
                    let shelf = (w[3] != 0).then(|| linked_shelf(w, 4));
                    vec![bits(linked::ln_single_copy(float(w, 0), float(w, 1), float(w, 2), shelf))]
                },
            )
        },
    ]
}

pub fn calls() -> Vec<Call> {
    [lobes(), shelves()].into_iter().flatten().collect()
}
