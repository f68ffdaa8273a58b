//! Layer 2 against math_helpers.rs, with the port's four routines in it.

mod densities;
mod log_sums;
mod masses;
mod shelves;

use crate::call::{Answer, Call, Kind, Told, EACH_CALL};
use crate::draw::Draw;
use crate::words::float;
use crate::{linked, unaltered};

pub fn calls() -> Vec<Call> {
    [log_sums::calls(), densities::calls(), masses::calls(), shelves::calls()].into_iter().flatten().collect()
}

fn call(
    number: u64,
    name: &'static str,
    arguments: &'static [(&'static str, Kind)],
    answer: Answer,
    ordinary: fn(&mut Draw) -> Vec<u64>,
    ours: fn(&[u64]) -> Vec<u64>,
    theirs: fn(&[u64]) -> Vec<u64>,
) -> Call {
    let (own, unaltered, told) = (vec![], None, Told::default());
    Call { number, name, arguments, answer, inputs: EACH_CALL, ordinary, own, ours, theirs, unaltered, told, open: |_| false }
}

fn words(floats: &[f64]) -> Vec<u64> {
    floats.iter().map(|x| x.to_bits()).collect()
}

fn linked_shelf(w: &[u64], i: usize) -> linked::models::Shelf {
    linked::models::Shelf { share: float(w, i), alpha: float(w, i + 1), beta: float(w, i + 2) }
}

fn unaltered_shelf(w: &[u64], i: usize) -> unaltered::models::Shelf {
    unaltered::models::Shelf { share: float(w, i), alpha: float(w, i + 1), beta: float(w, i + 2) }
}
