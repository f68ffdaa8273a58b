//! `sums.c`: a fit's single-copy probabilities and their sums in 200-bit arithmetic.

use crate::port;

#[repr(C)]
struct ExactFit {
    mean: f64,
    dispersion: f64,
    shelf: u8,
    share: f64,
    alpha: f64,
    beta: f64,
}

extern "C" {
    fn exact_begin();
    fn exact_fill(fit: *const ExactFit, trials: f64, last: u64);
    fn exact_cutoff(budget: f64, kmers: f64, ceiling: u64) -> u64;
    fn exact_edge(c: u64, kmers: f64) -> f64;
    fn exact_error(c: u64, computed: f64) -> f64;
    fn exact_sum_error(c: u64, computed: f64) -> f64;
    fn exact_direct(fit: *const ExactFit, trials: f64, x: u64) -> f64;
}

/// The probabilities of one fit at a time.
pub struct Exact {
    fit: ExactFit,
    kmers: f64,
    trials: f64,
    pub ceiling: u64,
}

pub fn begin() {
    unsafe { exact_begin() }
}

impl Exact {
    /// Of the counts 0 to the ceiling.
    pub fn of(fit: &port::Fit) -> Exact {
        let s = fit.shelf;
        let part =
            ExactFit { mean: fit.mean, dispersion: fit.dispersion, shelf: fit.shelf_present, share: s.share, alpha: s.alpha, beta: s.beta };
        let ceiling = (fit.mean.round() as u64).min(fit.fit_window_end as u64);
        let exact = Exact { fit: part, kmers: fit.genome_kmers, trials: fit.mean.round().max(1.0), ceiling };
        unsafe { exact_fill(&exact.fit, exact.trials, ceiling) };
        exact
    }

    /// 0 for none.
    pub fn cutoff(&self, budget: f64) -> u64 {
        unsafe { exact_cutoff(budget, self.kmers, self.ceiling) }
    }

    /// The budget nearest to what a cutoff above the count removes.
    pub fn edge(&self, count: u64) -> f64 {
        unsafe { exact_edge(count, self.kmers) }
    }

    /// The relative error of a probability and of a sum.
    pub fn errors(&self, count: u64, probability: f64, sum: f64) -> [f64; 2] {
        unsafe { [exact_error(count, probability), exact_sum_error(count, sum)] }
    }

    /// How far the ratios of consecutive terms led the probability of a count away, relative to it.
    pub fn astray(&self, count: u64) -> f64 {
        unsafe { exact_direct(&self.fit, self.trials, count) }
    }
}
