//! A fit, and what is read off it.

use crate::raw;
use crate::refusal::{answered, written};
use crate::shelf;
use crate::{ErrorModel, GenomeModel, Refusal, Shelf};

/// The error component's parameters.
#[derive(Clone, Copy, Debug, PartialEq)]
pub struct ErrorParams {
    /// The probability of count 1.
    pub singleton_probability: f64,
    /// The exponent of the tail from count 2 on.
    pub tail_exponent: f64,
    /// The shape of a Weibull-like tail; none for a Pareto one.
    pub weibull_shape: Option<f64>,
}

/// A parameter list worked out. Weights are those inside the window; k-mers and totals are distinct k-mers of the library;
/// likelihood, BIC and deviance are of the sample. Arrays go error, single-copy, repeat.
#[derive(Clone, Copy, Debug, PartialEq)]
pub struct SpectrumFit {
    /// The error family.
    pub error_model: ErrorModel,
    /// The genome family. Whether there is a shelf is said by `shelf` alone.
    pub genome_model: GenomeModel,
    /// The errors' weight.
    pub w_error: f64,
    /// The single copies' weight.
    pub w_single: f64,
    /// The repeats' weight.
    pub w_repeat: f64,
    /// The single-copy lobe's mean.
    pub mean: f64,
    /// Both lobes' dispersion: the variance over the mean.
    pub dispersion: f64,
    /// The single-copy mode that the list asked for, not rounded.
    pub target_mode: f64,
    /// The error component's parameters.
    pub error_params: ErrorParams,
    /// The shelf, where there is one.
    pub shelf: Option<Shelf>,
    /// The repeats' mean over the single-copy mean.
    pub repeat_ratio: f64,
    /// The single-copy k-mers at all counts, 0 too.
    pub genome_kmers: f64,
    /// The k-mers made by errors.
    pub error_kmers: f64,
    /// The k-mers of repeats.
    pub repeat_kmers: f64,
    /// The log-likelihood: minus the cost.
    pub log_likelihood: f64,
    /// The Bayesian information criterion: the lower the better.
    pub bic: f64,
    /// How far the bins are from what the fit expects: 0 at best.
    pub deviance: f64,
    /// The window's last count.
    pub fit_window_end: usize,
    /// The iterations of the run that it comes from.
    pub best_iterations: u64,
    /// The logs of the components' masses in the window.
    pub component_log_window_masses: [f64; 3],
    /// The logs of the components' totals.
    pub component_log_totals: [f64; 3],
    /// The recovered bins in the window, times the scale.
    pub observed_total: f64,
    /// The sum of all bins.
    pub full_distinct_total: f64,
}

/// How many distinct k-mers of the library a fit expects at a count.
#[derive(Clone, Copy, Debug, PartialEq)]
pub struct Heights {
    /// Of errors; a NaN at count 0.
    pub error: f64,
    /// Of single copies.
    pub single: f64,
    /// Of repeats.
    pub repeat: f64,
}

impl SpectrumFit {
    /// The components' heights at a count. Refusal 2.
    pub fn component_heights(&self, count: usize) -> Result<Heights, Refusal> {
        let answer = unsafe { raw::fog_component_heights(self.flat(), count) };
        answered(answer.number)?;
        Ok(Heights { error: answer.error, single: answer.single, repeat: answer.repeat })
    }

    /// Writes the heights at the counts 1 to `last`, three numbers for each (error, single, repeat), into the front of `out`, and
    /// answers that part. Much faster than one call a count. Refusals 2 and 10.
    pub fn component_heights_to<'o>(&self, last: usize, out: &'o mut [f64]) -> Result<&'o mut [f64], Refusal> {
        let answer = unsafe { raw::fog_component_heights_to(self.flat(), last, out.as_mut_ptr(), out.len()) };
        written(answer, out)
    }

    /// The count in the window where the error component is highest, the later of equals. Refusals 2, 5 and 8.
    pub fn error_mode(&self) -> Result<u64, Refusal> {
        let answer = unsafe { raw::fog_error_mode(self.flat()) };
        answered(answer.number)?;
        Ok(answer.count)
    }

    /// The single-copy lobe's mode.
    pub fn primary_mode(&self) -> u64 {
        unsafe { raw::fog_primary_mode(self.flat()) }
    }

    /// The repeat lobe's mode.
    pub fn repeat_mode(&self) -> u64 {
        unsafe { raw::fog_repeat_mode(self.flat()) }
    }

    /// How far the mode that mean and dispersion give back lies from `target_mode`.
    pub fn mode_roundtrip_error(&self) -> f64 {
        unsafe { raw::fog_mode_roundtrip_error(self.flat()) }
    }

    /// The components' totals over the spectrum's distinct k-mers.
    pub fn component_total_ratio(&self) -> f64 {
        unsafe { raw::fog_component_total_ratio(self.flat()) }
    }

    pub(crate) fn of(fit: raw::Fit) -> SpectrumFit {
        SpectrumFit {
            error_model: ErrorModel::of(fit.error_model),
            genome_model: GenomeModel::of(fit.genome_model),
            w_error: fit.w_error,
            w_single: fit.w_single,
            w_repeat: fit.w_repeat,
            mean: fit.mean,
            dispersion: fit.dispersion,
            target_mode: fit.target_mode,
            error_params: ErrorParams::of(fit.error_params),
            shelf: shelf::of(fit.shelf_present, fit.shelf),
            repeat_ratio: fit.repeat_ratio,
            genome_kmers: fit.genome_kmers,
            error_kmers: fit.error_kmers,
            repeat_kmers: fit.repeat_kmers,
            log_likelihood: fit.log_likelihood,
            bic: fit.bic,
            deviance: fit.deviance,
            fit_window_end: fit.fit_window_end,
            best_iterations: fit.best_iterations,
            component_log_window_masses: fit.component_log_window_masses,
            component_log_totals: fit.component_log_totals,
            observed_total: fit.observed_total,
            full_distinct_total: fit.full_distinct_total,
        }
    }

    pub(crate) fn flat(&self) -> raw::Fit {
        let (shelf_present, shelf) = shelf::flat(self.shelf);
        raw::Fit {
            error_model: self.error_model.flat(),
            genome_model: self.genome_model.flat(),
            w_error: self.w_error,
            w_single: self.w_single,
            w_repeat: self.w_repeat,
            mean: self.mean,
            dispersion: self.dispersion,
            target_mode: self.target_mode,
            error_params: self.error_params.flat(),
            shelf_present,
            shelf,
            repeat_ratio: self.repeat_ratio,
            genome_kmers: self.genome_kmers,
            error_kmers: self.error_kmers,
            repeat_kmers: self.repeat_kmers,
            log_likelihood: self.log_likelihood,
            bic: self.bic,
            deviance: self.deviance,
            fit_window_end: self.fit_window_end,
            best_iterations: self.best_iterations,
            component_log_window_masses: self.component_log_window_masses,
            component_log_totals: self.component_log_totals,
            observed_total: self.observed_total,
            full_distinct_total: self.full_distinct_total,
        }
    }
}

impl ErrorParams {
    fn of(errors: raw::Errors) -> ErrorParams {
        ErrorParams {
            singleton_probability: errors.singleton_probability,
            tail_exponent: errors.tail_exponent,
            weibull_shape: match errors.shape_present {
                0 => None,
                _ => Some(errors.weibull_shape),
            },
        }
    }

    fn flat(&self) -> raw::Errors {
        raw::Errors {
            singleton_probability: self.singleton_probability,
            tail_exponent: self.tail_exponent,
            shape_present: self.weibull_shape.is_some().into(),
            weibull_shape: self.weibull_shape.unwrap_or(0.0),
        }
    }
}
