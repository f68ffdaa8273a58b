//! The path through the two builds of the Rust. Answers are words, so that they compare with each other's and with the port's.

/// What the runs of the four configurations come to.
#[derive(Clone, PartialEq)]
pub struct Outcome {
    /// Of each: two families, whether there is a candidate, whether and why it is rejected, iterations, capped starts, and the fit.
    pub attempts: Vec<Vec<u64>>,
    /// Whether there is one, and the fit.
    pub selected: Vec<u64>,
    /// The hole cutoffs for the two budgets, the crossover and the error floor; 0 for none.
    pub cutoffs: Vec<u64>,
}

macro_rules! side {
    ($build:ident) => {
        pub mod $build {
            use super::Outcome;
            use crate::argmin::CostFunction;
            use crate::layer3::rust::{$build as rust, FIT};
            use crate::layer4::attempts::$build::{attempted, words};
            use crate::sample::{Sample, BUDGETS, CONFIGURATIONS, HINT, SEEDS, SHAPES};
            use crate::simplex::Run;
            use crate::$build::models::SpectrumFit;
            use crate::$build::spectrum_fitter::{empirical_shelf_share, fit_starts, select_fit, FitAttempt};

            pub fn share(s: &Sample) -> f64 {
                empirical_shelf_share(&s.bins, s.valley, s.peak)
            }

            pub fn starts(s: &Sample, families: (u8, u8)) -> Vec<Vec<f64>> {
                fit_starts(&rust::mixture(&s.problem(families)), HINT, share(s), &SEEDS, &SHAPES, None)
            }

            pub fn cost(s: &Sample, families: (u8, u8)) -> impl FnMut(&[f64]) -> f64 {
                let mixture = rust::mixture(&s.problem(families));
                move |list| mixture.cost(&list.to_vec()).expect("a cost is never an error")
            }

            fn cutoffs(fit: &SpectrumFit) -> Vec<u64> {
                let [few, many] = BUDGETS.map(|budget| fit.hole_cutoff(budget).unwrap_or(0));
                [few, many, fit.crossover().unwrap_or(0), fit.error_floor_cutoff()].map(u64::from).to_vec()
            }

            pub fn outcome(s: &Sample, runs: &[Vec<Run>]) -> Outcome {
                let tables = CONFIGURATIONS.iter().zip(runs).map(|(&families, runs)| s.run_table(families, runs));
                let attempts: Vec<FitAttempt> = tables.map(|table| attempted(&table)).collect();
                let selected = select_fit(&attempts);
                let fit = selected.map_or(vec![0; FIT], |fit| rust::fit_words(&fit));
                Outcome {
                    attempts: attempts.iter().map(words).collect(),
                    selected: [vec![selected.is_some().into()], fit].concat(),
                    cutoffs: selected.as_ref().map_or(vec![], cutoffs),
                }
            }
        }
    };
}

side!(linked);
side!(unaltered);
