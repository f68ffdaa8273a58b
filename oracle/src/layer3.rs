//! Layer 3 against models.rs, with the port's four routines in it.

mod cost_strata;
mod costs;
mod cutoff_strata;
pub mod cutoffs;
mod errors;
pub mod fits;
pub mod height_cutoffs;
pub mod many_heights;
mod params;
mod prepared_costs;
mod problem;
mod recovery;
pub mod rust;
mod shelf_rules;
pub mod usability;

pub use problem::Problem;

use crate::call::{Answer, Call, Kind, Told, EACH_CALL};
use crate::draw::Draw;

pub fn calls() -> Vec<Call> {
    let first = [costs::calls(), fits::calls(), params::calls(), errors::calls(), shelf_rules::calls(), recovery::calls()];
    first.into_iter().chain([prepared_costs::calls(), many_heights::calls(), cutoff_calls()]).flatten().collect()
}

pub fn cutoff_calls() -> Vec<Call> {
    [cutoffs::calls(), height_cutoffs::calls()].into_iter().flatten().collect()
}

fn call(
    number: u64,
    name: &'static str,
    arguments: &'static [(&'static str, Kind)],
    answer: Answer,
    ordinary: fn(&mut Draw) -> Vec<u64>,
    ours: fn(&[u64]) -> Vec<u64>,
    theirs: fn(&[u64]) -> Vec<u64>,
) -> Call {
    let (own, unaltered, told) = (vec![], None, Told::default());
    Call { number, name, arguments, answer, inputs: EACH_CALL, ordinary, own, ours, theirs, unaltered, told, open: |_| false }
}

fn words(floats: &[f64]) -> Vec<u64> {
    floats.iter().map(|x| x.to_bits()).collect()
}
