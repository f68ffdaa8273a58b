//! The parameter lists that a search starts from.

use crate::raw;
use crate::refusal::{answered, written};
use crate::{Configuration, Refusal};

/// What the starts of a search are made from, beside the error starts.
#[derive(Clone, Copy, Debug, PartialEq)]
pub struct Seeds<'a> {
    /// The dispersions to start from.
    pub dispersions: &'a [f64],
    /// One more dispersion, behind them. What is not finite or not above 1 becomes 2.
    pub hint: f64,
    /// The shelf share, inside 0 to 0.5: [`Spectrum::empirical_shelf_share`](crate::Spectrum::empirical_shelf_share), or another.
    pub share: f64,
    /// The shelf's shapes: pairs of retained fraction `m`, inside 0.3 to 1, and concentration, inside `1/m` to 20. A plain family reads
    /// none.
    pub shapes: &'a [f64],
}

/// Two tables of error starts: rows of tail exponent, singleton probability and shape, which the Pareto family does not read.
#[derive(Clone, Copy, Debug, PartialEq)]
pub struct StartTables<'a> {
    /// The rows of the Pareto family.
    pub pareto: &'a [f64],
    /// The rows of the Weibull family.
    pub weibull: &'a [f64],
}

impl StartTables<'_> {
    /// Refusal 7 where the length of either is not a positive multiple of 3.
    pub fn check(&self) -> Result<(), Refusal> {
        let (pareto, weibull) = (self.pareto, self.weibull);
        answered(unsafe { raw::fog_start_tables_refusal(pareto.as_ptr(), pareto.len(), weibull.as_ptr(), weibull.len()) })
    }
}

/// Writes every start of a search into the front of `out`, one parameter list behind the other, and answers that part:
/// `chunks_exact(configuration.list_length())` are the starts.
///
/// For each dispersion, and then for the hint, come the family's error starts, 2 for Pareto and 3 for Weibull, and for each of those,
/// with a shelf family, the shapes. Refusals 7 and 10.
pub fn fit_starts<'o>(configuration: Configuration, seeds: &Seeds<'_>, out: &'o mut [f64]) -> Result<&'o mut [f64], Refusal> {
    let answer = unsafe {
        raw::fog_fit_starts(
            configuration.error.flat(),
            configuration.genome.flat(),
            seeds.dispersions.as_ptr(),
            seeds.dispersions.len(),
            seeds.hint,
            seeds.share,
            seeds.shapes.as_ptr(),
            seeds.shapes.len(),
            out.as_mut_ptr(),
            out.len(),
        )
    };
    written(answer, out)
}

/// The same with the caller's error starts. Refusals 7 and 10, 7 whichever family is asked.
pub fn fit_starts_lent<'o>(
    configuration: Configuration,
    tables: &StartTables<'_>,
    seeds: &Seeds<'_>,
    out: &'o mut [f64],
) -> Result<&'o mut [f64], Refusal> {
    let answer = unsafe {
        raw::fog_fit_starts_lent(
            configuration.error.flat(),
            configuration.genome.flat(),
            tables.pareto.as_ptr(),
            tables.pareto.len(),
            tables.weibull.as_ptr(),
            tables.weibull.len(),
            seeds.dispersions.as_ptr(),
            seeds.dispersions.len(),
            seeds.hint,
            seeds.share,
            seeds.shapes.as_ptr(),
            seeds.shapes.len(),
            out.as_mut_ptr(),
            out.len(),
        )
    };
    written(answer, out)
}
