//! The two programs of each call: the port, and the rule of simplex.rs over the Rust's cost, linked to the port's routines.

use super::asked::{state, Asked};
use super::ends::{self, Moves};
use super::lent::{Lent, Report, Slice};
use super::port;
use super::reported::Reported;
use crate::argmin::CostFunction;
use crate::layer3::rust::linked::mixture;
use crate::layer3::Problem;
use crate::port::Written;
use crate::simplex::State;
use crate::words::bits;
use crate::{prepared, rules};
use std::cell::RefCell;

pub fn linked_cost(p: &Problem) -> impl FnMut(&[f64]) -> f64 {
    let mixture = mixture(p);
    move |list| mixture.cost(&list.to_vec()).expect("a cost is never an error")
}

// ---- answers in words

/// The number, how many runs, and what stands in the slices afterwards: all of it after a refusal, else all but what a cost works in.
fn told(a: &Asked, (number, runs): (u64, u64), lent: &Lent) -> Vec<u64> {
    let said = vec![number, runs];
    if number != 0 {
        return [said, lent.words()].concat();
    }
    let (written, p) = (runs as usize * a.each(), &a.problem);
    let simplexes = lent.simplexes[..written].iter().map(|&x| bits(x)).collect();
    let table = if p.with_shelf() { p.window_end as usize + 1 } else { 0 };
    let behind = [lent.simplexes.words(written), lent.ready.words(prepared::entries(p.window_end) as usize), lent.table.words(table)];
    [said, simplexes, behind.concat(), lent.iterations.words(0), lent.stopped.words(0)].concat()
}

/// The same of a report; the costs of the runs are answers, and NaNs are one.
fn told_report((number, runs): (u64, u64), report: &Report) -> Vec<u64> {
    let mut report = report.clone();
    let most = report.costs.len().min(runs as usize);
    report.costs[..most].iter_mut().for_each(|cost| *cost = f64::from_bits(bits(*cost)));
    [vec![number, runs], report.words()].concat()
}

fn answer(written: Written) -> (u64, u64) {
    (written.number.into(), written.items as u64)
}

fn refused(number: Option<u64>, runs: u64) -> (u64, u64) {
    number.map_or((0, runs), |number| (number, 0))
}

// ---- the rule

fn put(lent: &mut Lent, width: usize, i: usize, state: &State) {
    let each = width * width;
    for (row, vertex) in lent.simplexes[i * each..][..each].chunks_exact_mut(width).zip(&state.vertices) {
        row[0] = vertex.cost;
        row[1..].copy_from_slice(&vertex.at);
    }
    (lent.iterations[i], lent.stopped[i]) = (state.iterations, state.stopped.into());
}

fn rule_begins(a: &Asked, lent: &mut Lent) -> (u64, u64) {
    let said = refused(rules::first(&a.of_a_beginning()), a.started());
    if said.0 == 0 {
        let mut cost = linked_cost(&a.problem);
        for (i, start) in a.problem.theta.chunks_exact(a.list_length()).enumerate() {
            put(lent, a.width(), i, &State::first(start, &mut cost));
        }
    }
    said
}

/// What its iterations did is counted.
fn rule_goes_on(a: &Asked, limit: u64, lent: &mut Lent, moves: &mut Moves) -> (u64, u64) {
    let said = refused(rules::first(&a.of_going_on()), a.runs);
    if said.0 == 0 {
        let mut cost = linked_cost(&a.problem);
        for i in 0..a.runs as usize {
            let (mut run, mut left) = (state(lent, a.width(), i), limit);
            while let Some(how) = (left > 0).then(|| run.turn(a.cap(), &mut cost)).flatten() {
                left -= 1;
                moves[how as usize] += 1;
            }
            put(lent, a.width(), i, &run);
        }
    }
    said
}

fn rule_reports(r: &Reported, lent: &Lent, report: &mut Report) -> (u64, u64) {
    let said = refused(rules::first(&r.rules()), r.runs);
    for i in 0..said.1 as usize {
        let run = state(lent, r.width(), i);
        let best = run.best();
        (report.converged[i], report.caps[i]) = (run.converged().into(), run.capped(r.cap()).into());
        report.costs[i] = run.vertices[best].cost;
        report.places[i] = ((i * r.width() + best) * r.width() + 1) as u64;
        report.lengths[i] = r.width() as u64 - 1;
    }
    said
}

// ---- the calls, each alone

pub fn port_begins(w: &[u64]) -> Vec<u64> {
    let a = Asked::read(w);
    let mut lent = a.lent();
    let said = answer(port::begin(&a.problem, &mut lent));
    told(&a, said, &lent)
}

pub fn linked_begins(w: &[u64]) -> Vec<u64> {
    let a = Asked::read(w);
    let mut lent = a.lent();
    let said = rule_begins(&a, &mut lent);
    told(&a, said, &lent)
}

pub fn port_goes_on(w: &[u64]) -> Vec<u64> {
    let a = Asked::read(w);
    let mut lent = a.lent();
    let said = answer(port::go_on(&a.problem, a.runs, a.limit(), &mut lent));
    told(&a, said, &lent)
}

pub fn linked_goes_on(w: &[u64]) -> Vec<u64> {
    let a = Asked::read(w);
    let mut lent = a.lent();
    let said = rule_goes_on(&a, a.limit(), &mut lent, &mut Moves::default());
    told(&a, said, &lent)
}

pub fn port_reports(w: &[u64]) -> Vec<u64> {
    let r = Reported::read(w);
    let mut report = r.report();
    let said = answer(port::report((r.error, r.genome), r.runs, &r.lent(), &mut report));
    told_report(said, &report)
}

pub fn linked_reports(w: &[u64]) -> Vec<u64> {
    let r = Reported::read(w);
    let mut report = r.report();
    let said = rule_reports(&r, &r.lent(), &mut report);
    told_report(said, &report)
}

// ---- whole searches: a beginning, limit after limit, and the report

fn columns(runs: u64) -> Report {
    let n = runs as usize;
    let (flags, wholes) = (Slice::of(&vec![7u8; n]), Slice::of(&vec![7u64; n]));
    Report { converged: flags.clone(), costs: Slice::of(&vec![-7.0; n]), places: wholes.clone(), lengths: wholes, caps: flags }
}

pub fn port_searches(w: &[u64]) -> Vec<u64> {
    let a = Asked::read(w);
    let mut lent = a.lent();
    let said = answer(port::begin(&a.problem, &mut lent));
    let mut words = told(&a, said, &lent);
    for &limit in &a.limits {
        let said = answer(port::go_on(&a.problem, a.runs, limit, &mut lent));
        words.extend(told(&a, said, &lent));
    }
    let mut report = columns(a.runs);
    let said = answer(port::report((a.problem.error, a.problem.genome), a.runs, &lent, &mut report));
    words.extend(told_report(said, &report));
    words
}

/// What the rule makes of one input: the answer, each run as it stands at the end, and what its iterations did.
#[derive(Clone, Default)]
pub struct Judged {
    input: Vec<u64>,
    words: Vec<u64>,
    pub runs: Vec<State>,
    moves: Moves,
}

fn rule_searches(w: &[u64]) -> Judged {
    let (a, mut moves) = (Asked::read(w), Moves::default());
    let mut lent = a.lent();
    let said = rule_begins(&a, &mut lent);
    let mut words = told(&a, said, &lent);
    for &limit in &a.limits {
        let said = rule_goes_on(&a, limit, &mut lent, &mut moves);
        words.extend(told(&a, said, &lent));
    }
    let mut report = columns(a.runs);
    let said = rule_reports(&Reported::of(&a), &lent, &mut report);
    words.extend(told_report(said, &report));
    let runs = (0..a.runs as usize).map(|i| state(&lent, a.width(), i)).collect();
    Judged { input: w.to_vec(), words, runs, moves }
}

thread_local! {
    /// The last one: a stratum's own test asks for it before the comparison does.
    static LAST: RefCell<Judged> = RefCell::default();
}

pub fn judged(w: &[u64]) -> Judged {
    LAST.with_borrow_mut(|last| {
        if last.input != w {
            *last = rule_searches(w);
        }
        last.clone()
    })
}

/// How the runs ended is counted.
pub fn linked_searches(w: &[u64]) -> Vec<u64> {
    let judged = judged(w);
    ends::count(&Asked::read(w), &judged.runs, judged.moves);
    judged.words
}
