//! Layer 4 against spectrum_fitter.rs, with the port's four routines in it, and against document 01's validator.

mod attempt_arguments;
mod attempt_refusals;
mod attempt_strata;
pub mod attempts;
pub mod attempts_port;
pub mod read_back;
mod run_table;
mod searched;
pub mod selection;
mod spectra;
mod starts;
mod tables;
pub mod validator;
mod verdicts;

pub use run_table::{Run, RunTable};
pub use starts::Search;

use crate::call::{Answer, Call, Kind, Told, EACH_CALL};
use crate::draw::Draw;

pub fn calls() -> Vec<Call> {
    let first = [spectra::calls(), tables::calls(), starts::calls(), verdicts::calls()];
    first.into_iter().chain([selection::calls(), attempts::calls()]).flatten().collect()
}

fn call(
    number: u64,
    name: &'static str,
    arguments: &'static [(&'static str, Kind)],
    answer: Answer,
    ordinary: fn(&mut Draw) -> Vec<u64>,
    ours: fn(&[u64]) -> Vec<u64>,
    theirs: fn(&[u64]) -> Vec<u64>,
) -> Call {
    let (own, unaltered, told) = (vec![], None, Told::default());
    Call { number, name, arguments, answer, inputs: EACH_CALL, ordinary, own, ours, theirs, unaltered, told, open: |_| false }
}
