//! Document 01's validator, written from its ten rules, for each build of the Rust. Modes, sums and the shelf's rule are the Rust's.

macro_rules! validator {
    ($build:ident, $ln:ident) => {
        pub mod $build {
            use crate::$build::math_helpers::lse3;
            use crate::$build::models::{shelf_is_valid, SpectrumFit};
            #[allow(unused_imports)]
            use crate::linked::Routines;

            /// Whether each rule applies, by its number less 1, whatever comes first. The fit's window end is 1 to 65,535.
            pub fn rules(fit: &SpectrumFit, valley: u64, peak: u64, limit: f64) -> [bool; 10] {
                let (primary, repeat, window_end) = (fit.primary_mode() as u64, fit.repeat_mode() as u64, fit.fit_window_end as u64);
                let (mode, peak) = (primary as f64, peak as f64);
                let [first, second, third] = fit.component_log_totals;
                let excess = lse3(first, second, third) - fit.full_distinct_total.$ln();
                let off = fit.mode_roundtrip_error();
                let weights = [fit.w_error, fit.w_single, fit.w_repeat];
                [
                    [fit.log_likelihood, fit.bic, fit.deviance].iter().any(|x| !x.is_finite()),
                    weights.iter().any(|weight| !(0.0..=1.0).contains(weight))
                        || !fit.mean.is_finite()
                        || fit.mean <= 0.0
                        || !fit.dispersion.is_finite()
                        || fit.dispersion < 1.0
                        || fit.shelf.is_some_and(|shelf| !shelf_is_valid(shelf)),
                    fit.component_log_window_masses.iter().any(|mass| !mass.is_finite() || *mass > 1e-12),
                    excess > limit.$ln() || excess.is_nan(),
                    off > 0.5 || off.is_nan(),
                    primary == 0 || primary > window_end,
                    scan_has_nan(fit) || fit.error_mode() as u64 > valley,
                    mode + 1.0 < 0.75 * peak || mode > (0.75 + 0.58) * peak,
                    repeat <= primary,
                    fit.log_likelihood > 0.0,
                ]
            }

            fn scan_has_nan(fit: &SpectrumFit) -> bool {
                (1..=fit.fit_window_end).any(|count| fit.error_params.log_probability(count as f64).is_nan())
            }
        }
    };
}

validator!(linked, fog_ln);
validator!(unaltered, ln);

/// The first rule that applies, and 0 for none.
pub fn first(applies: [bool; 10]) -> u64 {
    applies.iter().position(|&holds| holds).map_or(0, |i| i as u64 + 1)
}

/// 1, 2, 5 and 9, and whether each applies.
pub fn refusals(window_end: u64, valley: u64, peak: u64, limit: f64) -> [(u64, bool); 4] {
    [
        (1, valley < 2 || peak < 2),
        (2, valley > 65_535 || peak > 65_535 || window_end > 65_535),
        (5, window_end == 0),
        (9, !limit.is_finite() || limit < 1.0),
    ]
}
