//! The cost of a list and the fit of a converged one: the problem, the answer, and the lent table before and after.

use super::cost_strata::strata;
use super::rust::{linked as side, unaltered as plain, FIT, FIT_FLOATS, FIT_WHOLES};
use super::{call, Problem};
use crate::argmin::CostFunction;
use crate::call::{ordinary_own, own, Answer, Call, Kind, Kind::*, Own};
use crate::draw::Draw;
use crate::linked::models::{MixtureFit, Params, NB_MODE_ROUNDTRIP_TOLERANCE, WINDOW_LOG_MASS_TOLERANCE};
use crate::port;
use crate::words::{after, bits, fit_words, lent};

const COST: &[(&str, Kind)] = &[("scale", Float)];
const UNPACK: &[(&str, Kind)] = &[("scale", Float), ("cost", Float), ("iterations", Whole)];

/// Which call the problem is drawn for: how many words it has behind the scale, and what stands there.
#[derive(Clone, Copy)]
pub struct For {
    pub words: usize,
    pub beside: fn(&mut Draw, &Problem) -> [u64; 2],
}

/// Cost has nothing there, unpack its cost and its iterations.
const OF_COST: For = For { words: 0, ..OF_UNPACK };
const OF_UNPACK: For = For { words: 2, beside: |d, _| [d.octaves(4, 24).to_bits(), d.below(2000)] };

impl For {
    fn words(self, d: &mut Draw, p: Problem) -> Vec<u64> {
        let beside = (self.beside)(d, &p);
        p.words(&beside[..self.words])
    }

    pub fn read(self, w: &[u64]) -> Problem {
        Problem::read(w, self.words)
    }

    pub fn own(
        self,
        name: &str,
        wanted: u64,
        draw: impl Fn(&mut Draw) -> Problem + 'static,
        meets: impl Fn(&Problem) -> bool + 'static,
    ) -> Own {
        own(name, wanted, self.drawn(draw), move |w| meets(&self.read(w)))
    }

    /// Of ordinary parameters, and not refused.
    pub fn ordinary(
        self,
        name: &str,
        wanted: u64,
        draw: impl Fn(&mut Draw) -> Problem + 'static,
        meets: impl Fn(&Problem) -> bool + 'static,
    ) -> Own {
        ordinary_own(name, wanted, self.drawn(draw), move |w| {
            let p = self.read(w);
            p.refusal().is_none() && meets(&p)
        })
    }

    pub fn drawn(self, draw: impl Fn(&mut Draw) -> Problem + 'static) -> impl Fn(&mut Draw) -> Vec<u64> + 'static {
        move |d| {
            let p = draw(d);
            self.words(d, p)
        }
    }
}

// ---- where the Rust's cost stops

#[derive(PartialEq)]
pub enum Stop {
    Parameters,
    RoundTrip,
    Masses,
    LogLikelihood,
    Nowhere,
}

/// The Rust's first test.
pub fn usable(p: &Params) -> bool {
    let e = p.error_params;
    let finite = p.mean.is_finite()
        && p.dispersion.is_finite()
        && p.target_mode.is_finite()
        && e.tail_exponent.is_finite()
        && e.singleton_probability.is_finite()
        && e.weibull_shape.is_none_or(f64::is_finite);
    let away = !finite
        || p.mean <= 0.0
        || e.tail_exponent <= 0.0
        || !(0.0..1.0).contains(&e.singleton_probability)
        || p.shelf.is_some_and(|s| !crate::linked::models::shelf_is_valid(s));
    !away
}

fn held(p: &Params) -> bool {
    let off = (p.mean - (p.dispersion - 1.0) - p.target_mode).abs() > NB_MODE_ROUNDTRIP_TOLERANCE;
    !off
}

pub fn masses_usable(masses: &[f64; 3]) -> bool {
    !masses.iter().any(|value| !value.is_finite() || *value > WINDOW_LOG_MASS_TOLERANCE)
}

fn evaluate(mixture: &MixtureFit, theta: &[f64]) -> f64 {
    mixture.cost(&theta.to_vec()).expect("a cost is never an error")
}

pub fn stop(p: &Problem) -> Stop {
    let mixture = side::mixture(p);
    let params = mixture.params(&p.theta);
    if !usable(&params) {
        Stop::Parameters
    } else if !held(&params) {
        Stop::RoundTrip
    } else if !masses_usable(&mixture.log_window_masses(params, side::table(p, &params).as_deref())) {
        Stop::Masses
    } else if evaluate(&mixture, &p.theta).is_infinite() {
        Stop::LogLikelihood
    } else {
        Stop::Nowhere
    }
}

// ---- the three programs

fn port_cost(w: &[u64]) -> Vec<u64> {
    let p = OF_COST.read(w);
    let (answer, table) = lent(&p.table, |table| port::cost(&p, table));
    [vec![answer.number.into(), bits(answer.value)], after(&p.table, &table)].concat()
}

fn linked_cost(w: &[u64]) -> Vec<u64> {
    let p = OF_COST.read(w);
    cost_or(&p, p.refusal())
}

/// A refusal's number, or the Rust's cost; and the table.
pub fn cost_or(p: &Problem, refusal: Option<u64>) -> Vec<u64> {
    if let Some(number) = refusal {
        return [vec![number, 0], after(&p.table, &p.table)].concat();
    }
    let mixture = side::mixture(p);
    let params = mixture.params(&p.theta);
    let started = usable(&params) && held(&params);
    let cost = evaluate(&mixture, &p.theta);
    [vec![0, bits(cost)], over(p, if started { side::table(p, &params) } else { None })].concat()
}

/// The unaltered Rust's.
pub fn plain_cost(p: &Problem) -> Vec<u64> {
    let cost = <crate::unaltered::models::MixtureFit as CostFunction>::cost(&plain::mixture(p), &p.theta.to_vec());
    vec![0, bits(cost.expect("a cost is never an error"))]
}

/// The lent table with these entries in front.
fn over(p: &Problem, entries: Option<Vec<f64>>) -> Vec<u64> {
    let mut held = p.table.clone();
    let entries = entries.unwrap_or_default();
    held[..entries.len()].copy_from_slice(&entries);
    after(&p.table, &held)
}

fn port_unpack(w: &[u64]) -> Vec<u64> {
    let p = OF_UNPACK.read(w);
    let (answer, table) = lent(&p.table, |table| port::unpack(&p, f64::from_bits(w[1]), w[2], table));
    [vec![answer.number.into()], fit_words(&answer.fit), after(&p.table, &table)].concat()
}

fn linked_unpack(w: &[u64]) -> Vec<u64> {
    let p = OF_UNPACK.read(w);
    if let Some(number) = p.refusal() {
        return [vec![number], vec![0; FIT], after(&p.table, &p.table)].concat();
    }
    let mixture = side::mixture(&p);
    let fit = mixture.unpack(&p.theta, f64::from_bits(w[1]), w[2]);
    [vec![0], side::fit_words(&fit), over(&p, side::table(&p, &mixture.params(&p.theta)))].concat()
}

pub fn calls() -> Vec<Call> {
    vec![
        Call {
            own: strata(OF_COST),
            unaltered: Some(|w| plain_cost(&OF_COST.read(w))),
            ..call(64, "cost", COST, Answer::Given { whole: 0, floats: 1 }, |d| OF_COST.drawn(Problem::ordinary)(d), port_cost, linked_cost)
        },
        Call {
            own: strata(OF_UNPACK),
            unaltered: Some(|w| {
                let p = OF_UNPACK.read(w);
                let fit = plain::mixture(&p).unpack(&p.theta, f64::from_bits(w[1]), w[2]);
                [vec![0], plain::fit_words(&fit)].concat()
            }),
            ..call(
                65,
                "unpack",
                UNPACK,
                Answer::Given { whole: FIT_WHOLES, floats: FIT_FLOATS },
                |d| OF_UNPACK.drawn(Problem::ordinary)(d),
                port_unpack,
                linked_unpack,
            )
        },
    ]
}
