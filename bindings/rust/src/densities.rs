//! Log densities, and the logs of window masses: the mass on the counts 1 to `top`.

use crate::raw;
use crate::refusal::value;
use crate::shelf;
use crate::{Refusal, Shelf};

/// The log density at `x` of the negative binomial with this mean and the variance `dispersion * mean`; a Poisson's where the
/// dispersion is at most 1 + 1e-9.
pub fn ln_dnbinom(x: f64, mean: f64, dispersion: f64) -> f64 {
    unsafe { raw::fog_ln_dnbinom(x, mean, dispersion) }
}

/// The log density at `x` of the beta-binomial over so many trials; -inf above the trials.
pub fn ln_dbetabinom(x: f64, trials: f64, alpha: f64, beta: f64) -> f64 {
    unsafe { raw::fog_ln_dbetabinom(x, trials, alpha, beta) }
}

/// The log density of the single-copy component at a count: its lobe, and the shelf where there is one.
pub fn ln_single_copy(count: f64, mean: f64, dispersion: f64, shelf: Option<Shelf>) -> f64 {
    let (present, numbers) = shelf::flat(shelf);
    unsafe { raw::fog_ln_single_copy(count, mean, dispersion, present, numbers) }
}

/// The same from the lobe's log density and the shelf's table, as [`shelf_log_table`](crate::shelf_log_table) answers it. The table
/// is read at the count cut to a whole number; without a shelf the answer is `lobe`.
pub fn mix_single_copy(lobe: f64, count: f64, shelf: Option<Shelf>, table: &[f64]) -> f64 {
    let (present, numbers) = shelf::flat(shelf);
    unsafe { raw::fog_mix_single_copy(lobe, count, present, numbers, table.as_ptr(), table.len()) }
}

/// The negative binomial's mode: `mean - (dispersion - 1)` cut to a whole number, 0 where that is negative or not finite.
pub fn discrete_nb_mode(mean: f64, dispersion: f64) -> u64 {
    unsafe { raw::fog_discrete_nb_mode(mean, dispersion) }
}

/// The log of the negative binomial's window mass. Refusals 2 and 5.
pub fn log_nb_mass(mean: f64, dispersion: f64, top: usize) -> Result<f64, Refusal> {
    value(unsafe { raw::fog_log_nb_mass(mean, dispersion, top) })
}

/// The log of the single-copy component's window mass, with the shelf's part from its table, as
/// [`shelf_log_table`](crate::shelf_log_table) answers it. Refusals 2 and 5.
pub fn single_copy_log_mass(mean: f64, dispersion: f64, shelf: Option<Shelf>, table: &[f64], top: usize) -> Result<f64, Refusal> {
    let (present, numbers) = shelf::flat(shelf);
    value(unsafe { raw::fog_single_copy_log_mass(mean, dispersion, present, numbers, table.as_ptr(), table.len(), top) })
}
