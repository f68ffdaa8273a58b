//! Attempts over a run table: what one pair of families came to.

use super::attempt_refusals::{refusals, unequal};
use super::attempts_port::{attempt_from, attempt_from_numbers, AttemptAnswer};
use super::selection::{ATTEMPT, BEFORE, HELD, REASON, REJECTED};
use super::{attempt_arguments, attempt_strata, call, searched, RunTable};
use crate::call::{Answer, Call, Kind, Kind::*, Own, Told};
use crate::layer3::rust::{FIT, FIT_FLOATS, FIT_WHOLES};
use crate::words::{after, fit_words, lent};

const TABLE: &[(&str, Kind)] = &[("table", Other)];

/// The attempt's whole numbers and its candidate's, then the candidate's floats; behind them what stands in the shelf's table.
const ANSWER: Answer = Answer::Given { whole: BEFORE + FIT_WHOLES, floats: FIT_FLOATS };

/// Whether there is a candidate, whether it is rejected, and why; and of which run it is, by its iterations and its log-likelihood, which is
/// minus the run's cost.
const TOLD: Told = Told { verdict: &[1 + HELD, 1 + REJECTED, 1 + REASON], which: &[BEFORE + FIT_WHOLES, 1 + BEFORE + FIT_WHOLES + 16] };

/// Tables, where other calls have a million inputs: each has up to 24 fits.
const TABLES: u64 = 50_000;

/// The number, the attempt, and the shelf's table from where it must stand as it was found.
fn answer_words(t: &RunTable, number: u64, attempt: Vec<u64>, now: &[f64]) -> Vec<u64> {
    let from = t.stands_from(number);
    [vec![number], attempt, after(&t.problem.table[from..], &now[from..])].concat()
}

fn port_words(t: &RunTable, (answer, now): (AttemptAnswer, Vec<f64>)) -> Vec<u64> {
    let a = answer.attempt;
    let before = [a.error_model, a.genome_model, a.has_candidate, a.rejection_present, a.rejection].map(u64::from);
    let totals = [a.total_iterations, a.capped_starts.into()];
    let attempt = [&before[..], &totals, &fit_words(&a.candidate)].concat();
    answer_words(t, answer.number.into(), attempt, &now)
}

fn port_numbers(w: &[u64]) -> Vec<u64> {
    let t = RunTable::read(w);
    port_words(&t, lent(&t.problem.table, |table| attempt_from_numbers(&t, table)))
}

fn port_runs(w: &[u64]) -> Vec<u64> {
    let t = RunTable::read(w);
    port_words(&t, lent(&t.problem.table, |table| attempt_from(&t, table)))
}

macro_rules! theirs {
    ($build:ident) => {
        pub mod $build {
            use super::super::validator::{first, $build::rules};
            use super::super::{Run, RunTable};
            use super::*;
            use crate::layer3::rust::$build::{error_model, fit_words, genome_model, mixture};
            use crate::$build::models::SpectrumFit;
            use crate::$build::spectrum_fitter::{attempt_from, FitAttempt, FitRejection, RunOutcome};

            /// The reasons in document 01's order, from `OptimisationFailed`, which no rule has.
            pub const REASONS: [FitRejection; 11] = [
                FitRejection::OptimisationFailed,
                FitRejection::NonFiniteLikelihood,
                FitRejection::InvalidComponents,
                FitRejection::InvalidWindowMass,
                FitRejection::ComponentMassExceeded,
                FitRejection::UnstableModeParameterisation,
                FitRejection::GenomeLobeOutsideFitWindow,
                FitRejection::ErrorModePastValley,
                FitRejection::PrimaryModeOutsideBand,
                FitRejection::RepeatModeTooEarly,
                FitRejection::PositiveLogLikelihood,
            ];

            fn outcome(t: &RunTable, run: Run) -> RunOutcome {
                let converged = run.converged.then(|| (run.cost, t.list(run).to_vec()));
                RunOutcome { converged, iterations: run.iterations, hit_cap: run.capped }
            }

            pub fn words(a: &FitAttempt) -> Vec<u64> {
                let families = [u64::from(a.error_model != error_model(0)), u64::from(a.genome_model != genome_model(0))];
                let reason = a.rejection.map(|why| REASONS.iter().position(|of| *of == why).expect("a reason has a number") as u64);
                let said = [u64::from(a.candidate.is_some()), u64::from(reason.is_some()), reason.unwrap_or(0)];
                let totals = [a.total_iterations, a.capped_starts.into()];
                let fit = a.candidate.map_or(vec![0; FIT], |fit| fit_words(&fit));
                [&families[..], &said, &totals, &fit].concat()
            }

            /// Of a table that gets no number.
            pub fn attempted(t: &RunTable) -> FitAttempt {
                let outcomes = t.runs().into_iter().map(|run| outcome(t, run)).collect();
                let judge = |fit: &SpectrumFit, valley: usize, peak: usize| {
                    let rule = first(rules(fit, valley as u64, peak as u64, t.mass_limit));
                    (rule > 0).then(|| REASONS[rule as usize])
                };
                attempt_from(&mixture(&t.problem), outcomes, t.valley as usize, t.problem.peak as usize, judge)
            }

            pub fn attempt(t: &RunTable) -> Vec<u64> {
                match t.refusal() {
                    Some(number) => answer_words(t, number, vec![0; ATTEMPT], &t.problem.table),
                    None => answer_words(t, 0, words(&attempted(t)), &t.problem.table),
                }
            }
        }
    };
}

theirs!(linked);
theirs!(unaltered);

/// The strata that every form of the call has.
fn shared() -> Vec<Own> {
    [attempt_arguments::strata(), attempt_strata::strata(), refusals(), searched::strata()].into_iter().flatten().collect()
}

/// A form of the call, and the strata that it alone has.
fn form(number: u64, name: &'static str, ours: fn(&[u64]) -> Vec<u64>, alone: Vec<Own>) -> Call {
    Call {
        inputs: TABLES,
        own: shared().into_iter().chain(alone).collect(),
        unaltered: Some(|w| unaltered::attempt(&RunTable::read(w))),
        told: TOLD,
        ..call(number, name, TABLE, ANSWER, |d| RunTable::ordinary(d).words(), ours, |w| linked::attempt(&RunTable::read(w)))
    }
}

/// Over six columns, and over run structs, which are of one length.
pub fn calls() -> Vec<Call> {
    vec![form(105, "attempt_from_numbers", port_numbers, unequal()), form(106, "attempt_from", port_runs, vec![])]
}
