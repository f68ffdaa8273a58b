//! The hole cutoff of the port and of the unaltered Rust beside the same fit in 200-bit arithmetic, as Markdown tables.
//! `measure/cutoffs` builds it. Usage: exact [DIVISOR], which divides the number of fits.
#![allow(dead_code)]

mod argmin;
mod call;
mod cutoffs;
mod draw;
#[path = "exact/fits.rs"]
mod fits;
mod heights;
mod layer3;
mod layer4;
mod linked;
mod port;
mod prepared;
mod rules;
mod search;
mod spectra;
#[path = "exact/sums.rs"]
mod sums;
mod tally;
mod unaltered;
mod words;

use draw::Draw;
use fits::{walks, Kind, KINDS};
use layer3::rust::unaltered as plain;
use sums::Exact;
use unaltered::math_helpers::ln_single_copy;
use unaltered::models::SpectrumFit;
use words::fit_words;

/// Of cutoffs beside the exact one; a cutoff that is too high removes more than was allowed.
#[derive(Default)]
struct Cutoffs {
    equal: u64,
    too_high: u64,
    too_low: u64,
    /// By how many counts at most, where both are cutoffs.
    counts: u64,
}

impl Cutoffs {
    /// 0 stands for none, above every cutoff.
    fn take(&mut self, computed: u64, exact: u64) {
        let place = |cutoff: u64| cutoff.wrapping_sub(1);
        match place(computed).cmp(&place(exact)) {
            std::cmp::Ordering::Equal => self.equal += 1,
            std::cmp::Ordering::Greater => self.too_high += 1,
            std::cmp::Ordering::Less => self.too_low += 1,
        }
        if computed > 0 && exact > 0 {
            self.counts = self.counts.max(computed.abs_diff(exact));
        }
    }

    fn cells(&self) -> String {
        format!("{} | {} | {} | {}", self.equal, self.too_high, self.too_low, self.counts)
    }
}

/// The largest relative errors, above and below, and the mean.
#[derive(Default)]
struct Errors {
    above: f64,
    below: f64,
    all: f64,
    number: u64,
}

impl Errors {
    fn take(&mut self, error: f64) {
        assert!(error.is_finite());
        self.above = self.above.max(error);
        self.below = self.below.max(-error);
        self.all += error;
        self.number += 1;
    }

    fn cells(&self) -> String {
        format!("{:.1e} | {:.1e} | {:.1e}", self.above, self.below, self.all / self.number as f64)
    }
}

/// One of the two programs beside the exact walk.
#[derive(Default)]
struct Side {
    /// With an ordinary budget, and with one at the edge of a cutoff.
    cutoffs: [Cutoffs; 2],
    probability: Errors,
    sum: Errors,
}

impl Side {
    /// The probabilities from 0 to the ceiling, added one after another.
    fn walk(&mut self, exact: &Exact, probability: impl Fn(f64) -> f64) {
        let mut sum = 0.0;
        for count in 0..=exact.ceiling {
            let p = probability(count as f64);
            sum += p;
            let [one, all] = exact.errors(count, p, sum);
            self.probability.take(one);
            self.sum.take(all);
        }
    }
}

/// 0 for none.
fn our_cutoff(fit: &port::Fit, budget: f64) -> u64 {
    let answer = cutoffs::hole_cutoff(*fit, budget);
    assert!(answer.number == 0, "an ordinary fit is refused");
    answer.cutoff.into()
}

fn rust_cutoff(fit: &SpectrumFit, budget: f64) -> u64 {
    fit.hole_cutoff(budget).map_or(0, u64::from)
}

#[derive(Default)]
struct Tally {
    fits: u64,
    ours: Side,
    rust: Side,
    astray: f64,
}

impl Tally {
    fn take(&mut self, d: &mut Draw, fit: &port::Fit) {
        let exact = Exact::of(fit);
        let rust = plain::fit(&fit_words(fit));
        let ordinary = (d.octaves(-14, -5) * fit.genome_kmers).round();
        let edge = exact.edge(1 + d.below(exact.ceiling - 1));
        for (i, budget) in [ordinary, edge].into_iter().enumerate() {
            let right = exact.cutoff(budget);
            self.ours.cutoffs[i].take(our_cutoff(fit, budget), right);
            self.rust.cutoffs[i].take(rust_cutoff(&rust, budget), right);
        }
        self.ours.walk(&exact, |x| port::exp(port::ln_single_copy(x, fit.mean, fit.dispersion, fit.shelf_present, fit.shelf)));
        self.rust.walk(&exact, |x| ln_single_copy(x, rust.mean, rust.dispersion, rust.shelf).exp());
        if self.fits % 100 == 0 {
            self.astray = self.astray.max(exact.astray(d.below(exact.ceiling + 1)).abs());
        }
        self.fits += 1;
    }
}

fn measured(kind: &Kind, genome: u8, divisor: u64) -> Tally {
    let mut d = Draw::named(&format!("cutoffs, {}, {genome}", kind.name));
    let mut tally = Tally::default();
    let wanted = kind.wanted / divisor;
    while tally.fits < wanted {
        let fits = (kind.draw)(&mut d, genome);
        let left = (wanted - tally.fits) as usize;
        for fit in fits.iter().filter(|fit| walks(fit)).take(left) {
            tally.take(&mut d, fit);
        }
    }
    tally
}

fn main() {
    let divisor: u64 = std::env::args().nth(1).map_or(1, |n| n.parse().expect("the divisor is a number"));
    sums::begin();
    let families = [(0, "lobes"), (1, "lobes and shelf")];
    let mut tallies = vec![];
    for (genome, family) in families {
        for kind in &KINDS {
            eprintln!("{family}, {}", kind.name);
            tallies.push((family, kind.name, measured(kind, genome, divisor)));
        }
    }
    if divisor > 1 {
        println!("**Quick run: 1/{divisor} of the fits.**\n");
    }
    println!(
        "| genome family | fits | number | budget | ours: equal | too high | too low | counts at most | Rust: equal | too high | too low | \
         counts at most |\n|---|---|---|---|---|---|---|---|---|---|---|---|"
    );
    for (i, budget) in ["whole k-mers, 2^-14 to 2^-4 of the genome's", "at the edge of a cutoff"].into_iter().enumerate() {
        for (family, kind, t) in &tallies {
            println!("| {family} | {kind} | {} | {budget} | {} | {} |", t.fits, t.ours.cutoffs[i].cells(), t.rust.cutoffs[i].cells());
        }
    }
    println!(
        "\n| genome family | fits | of | ours: too high by | too low by | mean | Rust: too high by | too low by | mean |\n\
         |---|---|---|---|---|---|---|---|---|"
    );
    for (family, kind, t) in &tallies {
        println!("| {family} | {kind} | a probability | {} | {} |", t.ours.probability.cells(), t.rust.probability.cells());
        println!("| {family} | {kind} | a sum | {} | {} |", t.ours.sum.cells(), t.rust.sum.cells());
    }
    let astray = tallies.iter().map(|(_, _, t)| t.astray).fold(0.0, f64::max);
    println!("\nOf one fit in 100 an exact probability was worked out by log gammas too: at most {astray:.1e} apart.");
    assert!(astray < 1e-40, "the exact probabilities are not exact");
}
