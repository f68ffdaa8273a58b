//! The races of attempts over run tables: the least run valid, or every run rejected.

use crate::agree::agree;
use crate::inputs::{Cell, LIMIT};
use crate::layer3::rust::unaltered::{fit, mixture};
use crate::layer3::Problem;
use crate::layer4::attempts::unaltered::REASONS;
use crate::layer4::attempts_port::attempt_from_numbers;
use crate::layer4::validator::{first, unaltered::rules};
use crate::layer4::{Run, RunTable};
use crate::port;
use crate::race::{race, Side, Times};
use crate::unaltered::models::SpectrumFit;
use crate::unaltered::spectrum_fitter::{attempt_from, validate_fit as own, FitAttempt, FitRejection, RunOutcome};
use crate::words::fit_words;
use std::cell::RefCell;
use std::collections::VecDeque;
use std::hint::black_box;

type Judge = fn(&SpectrumFit, usize, usize) -> Option<FitRejection>;

/// Document 01's rules.
fn document(fit: &SpectrumFit, valley: usize, peak: usize) -> Option<FitRejection> {
    let rule = first(rules(fit, valley as u64, peak as u64, LIMIT));
    (rule > 0).then(|| REASONS[rule as usize])
}

fn outcomes(t: &RunTable) -> Vec<RunOutcome> {
    let outcome =
        |run: Run| RunOutcome { converged: Some((run.cost, t.list(run).to_vec())), iterations: run.iterations, hit_cap: run.capped };
    t.runs().into_iter().map(outcome).collect()
}

/// The outcomes are laid ready before the clock starts, since the Rust takes them away.
fn attempts(tables: &[RunTable], divisor: usize, judge: Judge) -> Times {
    agree("attempt_from_numbers", tables.iter().map(RunTable::words));
    let mixtures: Vec<_> = tables.iter().map(|t| mixture(&t.problem)).collect();
    let mut table = tables[0].problem.table.clone();
    let ready = RefCell::new(VecDeque::new());
    let mut ours = |i: usize| _ = black_box(attempt_from_numbers(black_box(&tables[i]), &mut table));
    let mut theirs = |i: usize| {
        let (t, runs) = (&tables[i], ready.borrow_mut().pop_front().expect("the outcomes lie ready"));
        black_box(attempt_from(black_box(&mixtures[i]), runs, t.valley as usize, t.problem.peak as usize, judge));
    };
    let ours = Side { ready: &mut |_| {}, work: &mut ours };
    let theirs = Side { ready: &mut |i| ready.borrow_mut().push_back(outcomes(&tables[i])), work: &mut theirs };
    race(tables.len(), divisor, [ours, theirs])
}

/// Whether the port and both of the Rust's validators accept the run of the least cost.
fn least_is_valid(t: &RunTable) -> bool {
    let least = t.runs().into_iter().min_by(|a, b| a.cost.total_cmp(&b.cost)).expect("a table has runs");
    let problem = Problem { theta: t.list(least).to_vec(), ..t.problem.clone() };
    let ours = port::unpack(&problem, least.cost, least.iterations, &mut problem.table.clone()).fit;
    let (valley, peak) = (t.valley as usize, t.problem.peak as usize);
    let verdict = port::validate_fit(ours, valley, peak, LIMIT);
    let theirs = fit(&fit_words(&ours));
    (verdict.number, verdict.reason) == (0, 0) && [document as Judge, own].iter().all(|judge| judge(&theirs, valley, peak).is_none())
}

fn least_valid(cell: &Cell) -> &[RunTable] {
    assert!(cell.tables.iter().all(least_is_valid), "the least run of a table is rejected");
    &cell.tables
}

fn is_rejected(attempt: &FitAttempt) -> bool {
    attempt.candidate.is_some() && attempt.rejection.is_some()
}

/// The same tables with the peak four times as far out.
fn all_rejected(cell: &Cell) -> Vec<RunTable> {
    let tables: Vec<RunTable> = cell.tables.iter().map(|t| t.clone().then(|t| t.problem.peak *= 4)).collect();
    for t in &tables {
        let ours = attempt_from_numbers(t, &mut t.problem.table.clone()).attempt;
        assert!(ours.has_candidate == 1 && ours.rejection_present == 1, "a run is valid");
        for judge in [document as Judge, own] {
            let theirs = attempt_from(&mixture(&t.problem), outcomes(t), t.valley as usize, t.problem.peak as usize, judge);
            assert!(is_rejected(&theirs), "a run is valid");
        }
    }
    tables
}

pub fn valid(cell: &Cell, divisor: usize) -> Times {
    attempts(least_valid(cell), divisor, document)
}

pub fn valid_own(cell: &Cell, divisor: usize) -> Times {
    attempts(least_valid(cell), divisor, own)
}

pub fn rejected(cell: &Cell, divisor: usize) -> Times {
    attempts(&all_rejected(cell), divisor, document)
}

pub fn rejected_own(cell: &Cell, divisor: usize) -> Times {
    attempts(&all_rejected(cell), divisor, own)
}
