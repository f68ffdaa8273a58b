//! The page of how good the port's search is, beside the same rule over the unaltered cost, and how steady its outcome is.

use crate::layer4::selection::BEFORE;
use crate::lines::{run_words, Found};
use crate::sample::{family, Sample, BUDGETS, CONFIGURATIONS};
use crate::simplex::Run;
use std::cmp::Ordering;

/// In a fit's words.
const LOG_LIKELIHOOD: usize = 22;

/// Two costs are equal where they are no farther apart than this part of 1 and the larger: the tolerance by which a fit is selected.
const APART: f64 = 1e-9;

/// A sample, and what was found from its own starts and from moved ones; of the altered Rust from its own alone.
pub struct Told {
    pub name: String,
    pub sample: Sample,
    pub port: Vec<Found>,
    pub altered: Vec<Found>,
    pub unaltered: Vec<Found>,
}

fn row(cells: &[String]) {
    println!("| {} |", cells.join(" | "));
}

fn head(cells: &[&str]) {
    println!("| {} |\n|{}", cells.join(" | "), "---|".repeat(cells.len()));
}

/// Ours against theirs.
fn compared(ours: f64, theirs: f64) -> Ordering {
    let apart = (ours - theirs).abs() <= APART * (1.0 + ours.abs().max(theirs.abs()));
    if apart || ours == theirs {
        Ordering::Equal
    } else {
        ours.total_cmp(&theirs)
    }
}

fn named(order: Ordering) -> &'static str {
    match order {
        Ordering::Less => "lower",
        Ordering::Equal => "equal",
        Ordering::Greater => "higher",
    }
}

/// How many are lower, equal and higher.
#[derive(Clone, Copy, Default)]
struct Counts([u64; 3]);

impl Counts {
    fn take(&mut self, order: Ordering) {
        self.0[(order as i8 + 1) as usize] += 1;
    }

    fn told(self) -> String {
        format!("{} lower, {} equal, {} higher", self.0[0], self.0[1], self.0[2])
    }
}

/// The least cost of the converged runs.
fn least(runs: &[Run]) -> f64 {
    runs.iter().filter(|run| run.converged).map(|run| run.cost).fold(f64::INFINITY, f64::min)
}

/// The cost of the candidate that the attempt keeps; 0 for none.
fn kept(attempt: &[u64]) -> f64 {
    -f64::from_bits(attempt[BEFORE + LOG_LIKELIHOOD])
}

// ---- the port's runs beside the altered Rust's

/// Whether every word is the same.
fn judged(all: &[Told]) -> bool {
    head(&["sample", "runs", "words", "differ"]);
    let mut apart = 0;
    for t in all {
        let words = |found: &Found| found.runs.iter().flatten().flat_map(run_words).collect::<Vec<u64>>();
        let (ours, theirs) = (words(&t.port[0]), words(&t.altered[0]));
        let differ = ours.iter().zip(&theirs).filter(|(a, b)| a != b).count() + ours.len().abs_diff(theirs.len());
        let runs = t.port[0].runs.iter().flatten().count();
        row(&[t.name.clone(), runs.to_string(), ours.len().to_string(), differ.to_string()]);
        apart += differ;
    }
    apart == 0
}

// ---- the attempts

fn attempts(all: &[Told]) {
    head(&[
        "sample",
        "configuration",
        "starts",
        "converged",
        "iterations",
        "kept cost",
        "less Rust's",
        "it is",
        "least cost is",
        "of each start",
    ]);
    let (mut of_attempts, mut of_starts) = (Counts::default(), Counts::default());
    for t in all {
        let (ours, theirs) = (&t.port[0], &t.unaltered[0]);
        for (i, &families) in CONFIGURATIONS.iter().enumerate() {
            let runs = [&ours.runs[i], &theirs.runs[i]];
            let both = |of: &dyn Fn(&[Run]) -> String| format!("{}, {}", of(runs[0]), of(runs[1]));
            let mut starts = Counts::default();
            runs[0].iter().zip(runs[1]).for_each(|(a, b)| {
                starts.take(compared(a.cost, b.cost));
                of_starts.take(compared(a.cost, b.cost));
            });
            let (a, b) = (kept(&ours.outcome.attempts[i]), kept(&theirs.outcome.attempts[i]));
            of_attempts.take(compared(a, b));
            row(&[
                t.name.clone(),
                family(families).into(),
                runs[0].len().to_string(),
                both(&|runs| runs.iter().filter(|run| run.converged).count().to_string()),
                both(&|runs| runs.iter().map(|run| run.iterations).sum::<u64>().to_string()),
                format!("{a:.4}"),
                format!("{:.1e}", a - b),
                named(compared(a, b)).into(),
                named(compared(least(runs[0]), least(runs[1]))).into(),
                starts.told(),
            ]);
        }
    }
    println!("\nKept costs of the attempts: {}. Costs of the starts: {}.", of_attempts.told(), of_starts.told());
}

// ---- the selected fits and the cutoffs

fn chosen(found: &Found) -> &'static str {
    let selected = &found.outcome.selected;
    if selected[0] == 0 {
        "none"
    } else {
        family((selected[1] as u8, selected[2] as u8))
    }
}

fn cutoff(found: &Found, i: usize) -> String {
    match found.outcome.cutoffs.get(i) {
        None | Some(0) => "none".into(),
        Some(cutoff) => cutoff.to_string(),
    }
}

fn names_of_cutoffs() -> [String; 4] {
    let [few, many] = BUDGETS.map(|budget| format!("hole cutoff, budget {budget}"));
    [few, many, "crossover".into(), "error floor".into()]
}

fn cutoffs(all: &[Told]) {
    let names = names_of_cutoffs();
    head(&["sample", "search", "selected", &names[0], &names[1], &names[2], &names[3], "the same"]);
    for t in all {
        let (ours, theirs) = (&t.port[0], &t.unaltered[0]);
        let cells = |found: &Found| [vec![chosen(found).to_string()], (0..4).map(|i| cutoff(found, i)).collect()].concat();
        let same = cells(ours) == cells(theirs);
        row(&[vec![t.name.clone(), "the port's".into()], cells(ours), vec![if same { "yes" } else { "no" }.into()]].concat());
        row(&[vec![t.name.clone(), "over the unaltered cost".into()], cells(theirs), vec![String::new()]].concat());
    }
}

// ---- moved starts

/// How often something of the moved searches is not as the first has it.
fn changes(found: &[Found], of: impl Fn(&Found) -> String) -> String {
    let first = of(&found[0]);
    found[1..].iter().filter(|f| of(f) != first).count().to_string()
}

fn steadiness(all: &[Told]) {
    let names = names_of_cutoffs();
    head(&["sample", "search", "moves", "selected", &names[0], &names[1], &names[2], &names[3], "selected cost: least", "spread"]);
    for t in all {
        for (search, found) in [("the port's", &t.port), ("over the unaltered cost", &t.unaltered)] {
            let costs: Vec<f64> = found.iter().map(|f| -f64::from_bits(f.outcome.selected[1 + LOG_LIKELIHOOD])).collect();
            let (least, most) = (costs.iter().copied().fold(f64::INFINITY, f64::min), costs.iter().copied().fold(0.0, f64::max));
            let first = vec![t.name.clone(), search.into(), (found.len() - 1).to_string(), changes(found, |f| chosen(f).into())];
            let each = (0..4).map(|i| changes(found, |f| cutoff(f, i))).collect();
            row(&[first, each, vec![format!("{least:.3}"), format!("{:.1e}", most - least)]].concat());
        }
    }
}

// ---- the page

const JUDGED: &str = "Every run's end, iterations, cost and list: the port's search, through its C interface, beside the rule of \
    oracle/src/simplex.rs over the altered Rust's cost, built without the port's library, with the routines of oracle/src/written.rs.";

const ATTEMPTS: &str =
    "The port's search beside the same rule over the unaltered Rust's cost, from each one's own starts. A cost is equal where the \
    two are at most 1e-9 (1 + the larger) apart, the tolerance by which a fit is selected. The kept cost is that of the attempt's candidate; \
    the least cost is over all converged runs, rejected ones too. Two numbers in a cell are the port's and the other's.";

const MOVED: &str =
    "Each number of each start times 1 + u 1e-13, u drawn from -1 to 1, and then the whole again: how often the selected families and \
    each cutoff are not those of the starts themselves. The least selected cost and the spread are over all of these searches.";

/// Whether the port's runs are the rule's.
pub fn page(all: &[Told]) -> bool {
    println!("## The port's search against the rule\n\n{JUDGED}\n");
    let same = judged(all);
    println!("\n## The attempts\n\n{ATTEMPTS}\n");
    attempts(all);
    println!("\n## The selected fits and their cutoffs\n");
    cutoffs(all);
    println!("\n## From moved starts\n\n{MOVED}\n");
    steadiness(all);
    same
}
