//! Run tables that a search leaves: a run from each of its starts, over a simulated spectrum.

use super::{Run, RunTable};
use crate::call::{ordinary_own, Own};
use crate::draw::Draw;
use crate::{prepared, search};
use std::cell::RefCell;

/// Tables made of one search.
const EACH: usize = 10;

/// Every start's run to its end, or to the search's cap.
fn searched(d: &mut Draw) -> RunTable {
    let (error, genome, peak) = (d.family(), d.family(), 3 + d.below(6));
    let problem = search::problem(d, error, genome, 6 * peak);
    let (starts, valley) = (search::starts(d, &problem), search::valley(&problem));
    let (mut asked, mut table, ready) = (problem.clone(), problem.table.clone(), prepared::window(problem.window_end));
    let most = d.pick(&[100, 300, 1_000]);
    let mut t = RunTable::over(d, problem);
    t.valley = valley;
    for start in starts {
        let outcome = search::run(&start, most, |theta| {
            asked.theta.clear();
            asked.theta.extend(theta);
            prepared::cost(&asked, &ready, &mut table).value
        });
        let (iterations, capped) = (outcome.iterations, outcome.capped);
        let converged = outcome.converged.is_some();
        let (cost, list) = outcome.converged.unwrap_or((f64::INFINITY, start));
        t.push(Run { converged, cost, place: 0, length: 0, iterations, capped }, &list);
    }
    t
}

/// The whole table, then some of its runs in any order, under another limit and valley.
fn tables(d: &mut Draw, whole: RunTable) -> Vec<RunTable> {
    let runs = whole.runs();
    let mut tables = vec![whole];
    while tables.len() < EACH {
        let mut t = RunTable::over(d, tables[0].problem.clone());
        t.problem.theta.clone_from(&tables[0].problem.theta);
        (0..1 + d.below(runs.len() as u64)).for_each(|_| t.push_row(d.pick(&runs)));
        tables.push(t);
    }
    tables
}

fn one_after_another() -> impl Fn(&mut Draw) -> Vec<u64> {
    let left: RefCell<Vec<RunTable>> = RefCell::default();
    move |d| {
        let mut left = left.borrow_mut();
        if left.is_empty() {
            let whole = searched(d);
            *left = tables(d, whole);
            left.reverse();
        }
        left.pop().expect("a search makes tables").words()
    }
}

pub fn strata() -> Vec<Own> {
    let converged = |w: &[u64]| {
        let t = RunTable::read(w);
        t.refusal().is_none() && t.runs().iter().any(|run| run.converged)
    };
    vec![ordinary_own("runs of searches over simulated spectra", 500, one_after_another(), converged).long()]
}
