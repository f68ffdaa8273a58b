//! Words and problems as the two builds of the Rust have them.

/// A fit in words: two families, two presences, the window end, the iterations, and the floats in the Rust's order.
pub const FIT_WHOLES: usize = 6;
pub const FIT_FLOATS: usize = 27;
pub const FIT: usize = FIT_WHOLES + FIT_FLOATS;

/// Parameters in words: two presences, and the floats in the Rust's order.
pub const PARAMS_WHOLES: usize = 2;
pub const PARAMS_FLOATS: usize = 13;
pub const PARAMS: usize = PARAMS_WHOLES + PARAMS_FLOATS;

macro_rules! side {
    ($build:ident) => {
        #[allow(dead_code)]
        pub mod $build {
            use super::super::problem::Problem;
            use crate::rules;
            use crate::words::{bits, float};
            use crate::$build::math_helpers::shelf_log_table;
            use crate::$build::models::*;

            pub fn error_model(word: u64) -> ErrorModel {
                if word == 0 {
                    ErrorModel::FreeSingletonWeibull
                } else {
                    ErrorModel::SingletonPareto
                }
            }

            pub fn genome_model(word: u64) -> GenomeModel {
                if word == 0 {
                    GenomeModel::NegativeBinomial
                } else {
                    GenomeModel::ShelfNegativeBinomial
                }
            }

            pub fn shelf(w: &[u64], i: usize) -> Shelf {
                Shelf { share: float(w, i), alpha: float(w, i + 1), beta: float(w, i + 2) }
            }

            /// Singleton probability, tail exponent and shape from word i on.
            pub fn errors(w: &[u64], present: u64, i: usize) -> ErrorParams {
                let weibull_shape = (present != 0).then(|| float(w, i + 2));
                ErrorParams { singleton_probability: float(w, i), tail_exponent: float(w, i + 1), weibull_shape }
            }

            pub fn fit(w: &[u64]) -> SpectrumFit {
                let x = |i: usize| float(w, super::FIT_WHOLES + i);
                SpectrumFit {
                    error_model: error_model(w[0]),
                    genome_model: genome_model(w[1]),
                    w_error: x(0),
                    w_single: x(1),
                    w_repeat: x(2),
                    mean: x(3),
                    dispersion: x(4),
                    target_mode: x(5),
                    error_params: errors(w, w[2], super::FIT_WHOLES + 6),
                    shelf: (w[3] != 0).then(|| shelf(w, super::FIT_WHOLES + 9)),
                    repeat_ratio: x(12),
                    genome_kmers: x(13),
                    error_kmers: x(14),
                    repeat_kmers: x(15),
                    log_likelihood: x(16),
                    bic: x(17),
                    deviance: x(18),
                    fit_window_end: w[4] as usize,
                    best_iterations: w[5],
                    component_log_window_masses: [x(19), x(20), x(21)],
                    component_log_totals: [x(22), x(23), x(24)],
                    observed_total: x(25),
                    full_distinct_total: x(26),
                }
            }

            pub fn fit_words(f: &SpectrumFit) -> Vec<u64> {
                let e = f.error_params;
                let s = f.shelf.unwrap_or(Shelf { share: 0.0, alpha: 0.0, beta: 0.0 });
                let families = [u64::from(f.error_model != error_model(0)), u64::from(f.genome_model != genome_model(0))];
                let presences = [u64::from(e.weibull_shape.is_some()), u64::from(f.shelf.is_some())];
                let wholes = [f.fit_window_end as u64, f.best_iterations];
                let shape = e.weibull_shape.unwrap_or(0.0);
                let floats = [
                    vec![f.w_error, f.w_single, f.w_repeat, f.mean, f.dispersion, f.target_mode],
                    vec![e.singleton_probability, e.tail_exponent, shape, s.share, s.alpha, s.beta, f.repeat_ratio],
                    vec![f.genome_kmers, f.error_kmers, f.repeat_kmers, f.log_likelihood, f.bic, f.deviance],
                    f.component_log_window_masses.to_vec(),
                    f.component_log_totals.to_vec(),
                    vec![f.observed_total, f.full_distinct_total],
                ];
                families.into_iter().chain(presences).chain(wholes).chain(floats.concat().into_iter().map(bits)).collect()
            }

            pub fn params(w: &[u64]) -> Params {
                let x = |i: usize| float(w, super::PARAMS_WHOLES + i);
                Params {
                    ln_error: x(0),
                    ln_single: x(1),
                    ln_repeat: x(2),
                    target_mode: x(3),
                    mean: x(4),
                    dispersion: x(5),
                    error_params: errors(w, w[0], super::PARAMS_WHOLES + 6),
                    shelf: (w[1] != 0).then(|| shelf(w, super::PARAMS_WHOLES + 9)),
                    repeat_ratio: x(12),
                }
            }

            pub fn params_words(p: &Params) -> Vec<u64> {
                let e = p.error_params;
                let s = p.shelf.unwrap_or(Shelf { share: 0.0, alpha: 0.0, beta: 0.0 });
                let presences = [u64::from(e.weibull_shape.is_some()), u64::from(p.shelf.is_some())];
                let shape = e.weibull_shape.unwrap_or(0.0);
                let floats = [
                    [p.ln_error, p.ln_single, p.ln_repeat, p.target_mode, p.mean, p.dispersion].to_vec(),
                    [e.singleton_probability, e.tail_exponent, shape, s.share, s.alpha, s.beta, p.repeat_ratio].to_vec(),
                ];
                presences.into_iter().chain(floats.concat().into_iter().map(bits)).collect()
            }

            /// The observed entries are the non-zero recovered bins in the window, as spectrum_fitter.rs makes them.
            pub fn mixture(p: &Problem) -> MixtureFit {
                let scale = rules::used(p.scale);
                let sample = p.bins.iter().take(p.window_end as usize).map(|&n| rules::recovered(n, scale));
                let counted = sample.enumerate().filter(|&(_, n)| n > 0);
                let observed: Vec<(f64, f64)> = counted.map(|(i, n)| ((i + 1) as f64, f64::from(n))).collect();
                MixtureFit {
                    observed_total: observed.iter().map(|&(_, n)| n).sum(),
                    observed: observed.into(),
                    full_distinct_total: p.bins.iter().map(|&n| f64::from(n)).sum(),
                    peak: p.peak as f64,
                    fit_window_end: p.window_end as usize,
                    error_model: error_model(p.error.into()),
                    genome_model: genome_model(p.genome.into()),
                    sample_scale: scale,
                }
            }

            pub fn table(p: &Problem, params: &Params) -> Option<Vec<f64>> {
                params.shelf.map(|s| shelf_log_table(params.mean, s, p.window_end as usize))
            }
        }
    };
}

side!(linked);
side!(unaltered);
