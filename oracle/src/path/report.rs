//! The page of results, from what the searches found.

use crate::layer4::selection::{BEFORE, REJECTED};
use crate::lines::Found;
use crate::sample::{family, Sample, BUDGETS, CONFIGURATIONS};
use crate::sides::linked;
use std::collections::BTreeMap;
use std::fmt::Display;

/// A fit's words in the order of oracle/src/words.rs, behind the families and the presences.
const FIELDS: [&str; 29] = [
    "fit_window_end",
    "best_iterations",
    "w_error",
    "w_single",
    "w_repeat",
    "mean",
    "dispersion",
    "target_mode",
    "singleton_probability",
    "tail_exponent",
    "weibull_shape",
    "shelf share",
    "shelf alpha",
    "shelf beta",
    "repeat_ratio",
    "genome_kmers",
    "error_kmers",
    "repeat_kmers",
    "log_likelihood",
    "bic",
    "deviance",
    "log window mass, error",
    "log window mass, single",
    "log window mass, repeat",
    "log total, error",
    "log total, single",
    "log total, repeat",
    "observed_total",
    "full_distinct_total",
];
const BEFORE_FIELDS: usize = 4;
const WHOLES: usize = 2;
const LOG_LIKELIHOOD: usize = 22;
const BIC: usize = 23;

/// In an attempt's words, before its fit.
const ITERATIONS: usize = 5;
const CAPPED: usize = 6;

const REASONS: [&str; 11] = [
    "no run converged",
    "NonFiniteLikelihood",
    "InvalidComponents",
    "InvalidWindowMass",
    "ComponentMassExceeded",
    "UnstableModeParameterisation",
    "GenomeLobeOutsideFitWindow",
    "ErrorModePastValley",
    "PrimaryModeOutsideBand",
    "RepeatModeTooEarly",
    "PositiveLogLikelihood",
];

/// A sample, and what the two builds found from its own starts and from moved ones.
pub struct Told {
    pub name: String,
    pub sample: Sample,
    pub altered: Vec<Found>,
    pub unaltered: Vec<Found>,
    /// What was compared, how many words, and how many differ.
    pub judged: Vec<(String, u64, u64)>,
}

fn row(cells: &[String]) {
    println!("| {} |", cells.join(" | "));
}

fn head(cells: &[&str]) {
    println!("| {} |\n|{}", cells.join(" | "), "---|".repeat(cells.len()));
}

fn cutoff(word: u64) -> String {
    if word == 0 {
        "none".into()
    } else {
        word.to_string()
    }
}

fn least(numbers: &[f64]) -> f64 {
    numbers.iter().copied().fold(f64::INFINITY, f64::min)
}

fn most(numbers: &[f64]) -> f64 {
    numbers.iter().copied().fold(f64::NEG_INFINITY, f64::max)
}

fn chosen(found: &Found) -> &'static str {
    let selected = &found.outcome.selected;
    if selected[0] == 0 {
        "none"
    } else {
        family((selected[1] as u8, selected[2] as u8))
    }
}

// ---- the samples, and what the port and the altered Rust make of them

pub fn samples(all: &[Told]) {
    head(&["sample", "bins", "k-mers at count 1", "valley", "peak", "window end", "shelf share"]);
    for t in all {
        let s = &t.sample;
        let numbers = [s.bins.len(), s.bins[0] as usize, s.valley, s.peak, s.window_end];
        row(&[vec![t.name.clone()], numbers.iter().map(usize::to_string).collect(), vec![format!("{:.4}", linked::share(s))]].concat());
    }
}

pub fn judged(all: &[Told]) {
    head(&[&["step"][..], &all.iter().map(|t| t.name.as_str()).collect::<Vec<_>>()].concat());
    let cell = |(_, compared, apart): &(String, u64, u64)| format!("{compared}, {apart} differ");
    for (i, (name, ..)) in all[0].judged.iter().enumerate() {
        row(&[vec![name.clone()], all.iter().map(|t| cell(&t.judged[i])).collect()].concat());
    }
    let sum = |of: fn(&(String, u64, u64)) -> u64| all.iter().flat_map(|t| &t.judged).map(of).sum::<u64>();
    println!("\n{} comparisons, {} differences.", sum(|step| step.1), sum(|step| step.2));
}

fn verdict(attempt: &[u64]) -> &'static str {
    if attempt[REJECTED] == 0 {
        "valid"
    } else {
        REASONS[attempt[REJECTED + 1] as usize]
    }
}

pub fn attempts(all: &[Told]) {
    head(&[
        "sample",
        "configuration",
        "runs",
        "capped",
        "converged",
        "their costs",
        "cheaper, but rejected",
        "verdict",
        "BIC",
        "iterations",
    ]);
    for t in all {
        let found = &t.altered[0];
        for (i, (&families, attempt)) in CONFIGURATIONS.iter().zip(&found.outcome.attempts).enumerate() {
            let costs: Vec<f64> = found.runs[i].iter().filter(|run| run.converged).map(|run| run.cost).collect();
            let kept = -f64::from_bits(attempt[BEFORE + LOG_LIKELIHOOD]);
            let cheaper = costs.iter().filter(|&&cost| cost < kept).count();
            row(&[
                t.name.clone(),
                family(families).into(),
                found.runs[i].len().to_string(),
                attempt[CAPPED].to_string(),
                costs.len().to_string(),
                format!("{:.2} to {:.2}", least(&costs), most(&costs)),
                cheaper.to_string(),
                verdict(attempt).into(),
                format!("{:.3}", f64::from_bits(attempt[BEFORE + BIC])),
                attempt[ITERATIONS].to_string(),
            ]);
        }
    }
}

pub fn cutoffs(all: &[Told]) {
    let holes = BUDGETS.map(|budget| format!("hole cutoff, budget {budget}"));
    head(&["sample", "Rust", "selected", "BIC", &holes[0], &holes[1], "crossover", "error floor"]);
    for t in all {
        for (build, found) in [("altered, and the port", &t.altered[0]), ("unaltered", &t.unaltered[0])] {
            let bic = f64::from_bits(found.outcome.selected[1 + BIC]);
            let first = [t.name.clone(), build.into(), chosen(found).into(), format!("{bic:.3}")];
            row(&[first.to_vec(), found.outcome.cutoffs.iter().map(|&c| cutoff(c)).collect()].concat());
        }
    }
}

// ---- the fields of the selected fits, side by side

fn distance(a: f64, b: f64) -> String {
    if a.to_bits() == b.to_bits() {
        return "0".into();
    }
    format!("{:.1e}", ((a - b) / a).abs())
}

pub fn fields(t: &Told) {
    println!("### {}\n", t.name);
    head(&["field", "altered", "unaltered", "distance, of the first"]);
    let (ours, theirs) = (&t.altered[0].outcome.selected[1..], &t.unaltered[0].outcome.selected[1..]);
    row(&["families".into(), chosen(&t.altered[0]).into(), chosen(&t.unaltered[0]).into(), String::new()]);
    for (i, name) in FIELDS.iter().enumerate() {
        let (a, b) = (ours[BEFORE_FIELDS + i], theirs[BEFORE_FIELDS + i]);
        if i < WHOLES {
            row(&[name.to_string(), a.to_string(), b.to_string(), String::new()]);
        } else {
            let (a, b) = (f64::from_bits(a), f64::from_bits(b));
            row(&[name.to_string(), format!("{a:e}"), format!("{b:e}"), distance(a, b)]);
        }
    }
    println!();
}

// ---- moved starts

/// Each value and how often it came, the most frequent first.
fn spread<T: Ord + Display>(values: impl Iterator<Item = T>) -> String {
    let mut counts: BTreeMap<T, usize> = BTreeMap::new();
    values.for_each(|value| *counts.entry(value).or_default() += 1);
    let mut counts: Vec<(T, usize)> = counts.into_iter().collect();
    counts.sort_by(|a, b| b.1.cmp(&a.1));
    counts.iter().map(|(value, times)| format!("{value} × {times}")).collect::<Vec<_>>().join(", ")
}

pub fn steadiness(all: &[Told]) {
    let holes = BUDGETS.map(|budget| format!("hole cutoff, budget {budget}"));
    head(&["sample", "Rust", "searches", "selected", &holes[0], &holes[1], "crossover", "error floor", "selected cost: least", "spread"]);
    for t in all {
        for (build, found) in [("altered", &t.altered), ("unaltered", &t.unaltered)] {
            let moved = &found[1..];
            let costs: Vec<f64> = moved.iter().map(|f| -f64::from_bits(f.outcome.selected[1 + LOG_LIKELIHOOD])).collect();
            let spread_of_costs = most(&costs) - least(&costs);
            let first = [t.name.clone(), build.into(), moved.len().to_string(), spread(moved.iter().map(chosen))];
            let each = (0..4).map(|i| spread(moved.iter().map(|f| cutoff(f.outcome.cutoffs[i]))));
            row(&[first.to_vec(), each.collect(), vec![format!("{:.3}", least(&costs)), format!("{spread_of_costs:.1e}")]].concat());
        }
    }
}

// ---- the page

const SAMPLES: &str =
    "samples/make simulates the reads: a genome of 200,000 bases, reads of 150, one base in 200 wrong, k = 31; the name has \
    the depth. depth-21 has a lobe wider than a Poisson, depth-60-shelf a shelf. The valley is the first count from 2 on with fewer k-mers \
    than the next, the peak the highest count behind it, the window end the smaller of 6 peaks and bins - 1; scale 1, mass limit 1.1, \
    seeds 2, 8, 15, hint 2, shapes (0.5, 3) and (0.75, 4). Budgets are 1e-4 and 1e-3 of the genome's 200,000 k-mers.";

const JUDGED: &str =
    "Words compared, the altered Rust being the pristine one over the port's four routines, with document 01's validator. Bins \
    are compared with a reader made from document 01. Runs: a search over the port's prepared cost, through the C interface, and the same \
    search over the altered Rust's cost, with the routines of oracle/src/written.rs and without the port's library: every run's end, \
    iterations, cost and list. From there on both get the port's runs; of the hole cutoffs number, walk, sure and cutoff are compared. The \
    last row: the attempts, the selection and the cutoffs as the altered Rust gives them without the library.";

const SEARCH: &str =
    "A run from each start, by Nelder and Mead's method (oracle/src/path/simplex.rs): at most 1,000 iterations, 2,000 with a \
    shelf; converged where the costs' mean squared deviation is below 1e-8 before that.";

const MOVED: &str =
    "Each number of each start times 1 + u 1e-13, u drawn from -1 to 1, and then the whole path again. Both builds run without the \
    port's library: the altered one with the routines of oracle/src/written.rs, the unaltered one with the host's.";

fn section(title: &str, text: &str, table: impl FnOnce()) {
    println!("## {title}\n");
    if !text.is_empty() {
        println!("{text}\n");
    }
    table();
    println!();
}

pub fn page(all: &[Told]) {
    section("The samples", SAMPLES, || samples(all));
    section("The port against the altered Rust", JUDGED, || judged(all));
    section("The attempts, of the port and of the altered Rust", SEARCH, || attempts(all));
    section("The selected fits and their cutoffs, each Rust by its own search", "", || cutoffs(all));
    section("The selected fits, field by field", "", || all.iter().for_each(fields));
    section("From moved starts", MOVED, || steadiness(all));
}
