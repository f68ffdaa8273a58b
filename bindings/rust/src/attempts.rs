//! What the runs of a configuration came to.

use crate::raw;
pub use crate::raw::Run;
use crate::refusal::answered;
use crate::{Configuration, ErrorModel, FitRejection, GenomeModel, Refusal, Spectrum, SpectrumFit};

/// A run table as six slices, one entry for each run, and the numbers of their lists. It has as many runs as the shortest of the
/// six, and `RunColumns::default()` has none.
#[derive(Clone, Copy, Debug, Default, PartialEq)]
pub struct RunColumns<'a> {
    /// 0 where the run did not converge, and any other byte where it did. One that did not counts for its iterations and its cap
    /// alone.
    pub converged: &'a [u8],
    /// Its cost, which is finite and above 0 for a converged run.
    pub costs: &'a [f64],
    /// Where its parameter list starts in `lists`.
    pub places: &'a [usize],
    /// The length of its list.
    pub lengths: &'a [usize],
    /// Its iterations.
    pub iterations: &'a [u64],
    /// 0 where it did not run into its cap, and any other byte where it did.
    pub caps: &'a [u8],
    /// The numbers of all lists.
    pub lists: &'a [f64],
}

/// What one configuration came to: its valid fit of lowest cost, or else the rejected one and why.
#[derive(Clone, Copy, Debug, PartialEq)]
pub struct FitAttempt {
    /// The error family.
    pub error_model: ErrorModel,
    /// The genome family.
    pub genome_model: GenomeModel,
    /// The fit; none where no run converged.
    pub candidate: Option<SpectrumFit>,
    /// Why the candidate is not used; none where it is valid.
    pub rejection: Option<FitRejection>,
    /// The iterations of all runs; they stop at 2^64 - 1.
    pub total_iterations: u64,
    /// How many runs ran into their cap.
    pub capped_starts: u32,
}

impl Spectrum<'_> {
    /// What the runs of a configuration came to: of those that converged the valid one of lowest cost, the earlier on ties; with none
    /// valid the one of lowest cost, with its rejection. The validator's mass limit is 1 or more.
    ///
    /// With a shelf family `table` needs `window_end + 1` entries, which hold anything afterwards; a plain one needs none. Refusals 1,
    /// 2, 4, 5, 6, 7, 9 and 10.
    pub fn attempt_from_numbers(
        &self,
        configuration: Configuration,
        mass_limit: f64,
        runs: &RunColumns<'_>,
        table: &mut [f64],
    ) -> Result<FitAttempt, Refusal> {
        let answer = unsafe {
            raw::fog_attempt_from_numbers(
                self.bins.as_ptr(),
                self.bins.len(),
                self.scale,
                self.window_end,
                self.valley,
                self.peak,
                configuration.error.flat(),
                configuration.genome.flat(),
                mass_limit,
                runs.converged.as_ptr(),
                runs.converged.len(),
                runs.costs.as_ptr(),
                runs.costs.len(),
                runs.places.as_ptr(),
                runs.places.len(),
                runs.lengths.as_ptr(),
                runs.lengths.len(),
                runs.iterations.as_ptr(),
                runs.iterations.len(),
                runs.caps.as_ptr(),
                runs.caps.len(),
                runs.lists.as_ptr(),
                runs.lists.len(),
                table.as_mut_ptr(),
                table.len(),
            )
        };
        answered(answer.number)?;
        Ok(FitAttempt::of(answer.attempt))
    }

    /// The same over a run table of structs, one for each run; `lists` has the numbers of their lists.
    pub fn attempt_from(
        &self,
        configuration: Configuration,
        mass_limit: f64,
        runs: &[Run],
        lists: &[f64],
        table: &mut [f64],
    ) -> Result<FitAttempt, Refusal> {
        let setup = raw::Setup {
            scale: self.scale,
            window_end: self.window_end,
            valley: self.valley,
            peak: self.peak,
            error: configuration.error.flat(),
            genome: configuration.genome.flat(),
            mass_limit,
        };
        let answer = unsafe {
            raw::fog_attempt_from(
                self.bins.as_ptr(),
                self.bins.len(),
                setup,
                runs.as_ptr(),
                runs.len(),
                lists.as_ptr(),
                lists.len(),
                table.as_mut_ptr(),
                table.len(),
            )
        };
        answered(answer.number)?;
        Ok(FitAttempt::of(answer.attempt))
    }
}

impl FitAttempt {
    /// Whether there is a candidate and no rejection.
    pub fn is_valid(&self) -> bool {
        unsafe { raw::fog_is_valid(self.flat()) != 0 }
    }

    fn of(attempt: raw::Attempt) -> FitAttempt {
        FitAttempt {
            error_model: ErrorModel::of(attempt.error_model),
            genome_model: GenomeModel::of(attempt.genome_model),
            candidate: match attempt.has_candidate {
                0 => None,
                _ => Some(SpectrumFit::of(attempt.candidate)),
            },
            rejection: match attempt.rejection_present {
                0 => None,
                _ => Some(FitRejection::of(attempt.rejection)),
            },
            total_iterations: attempt.total_iterations,
            capped_starts: attempt.capped_starts,
        }
    }

    pub(crate) fn flat(&self) -> raw::Attempt {
        raw::Attempt {
            error_model: self.error_model.flat(),
            genome_model: self.genome_model.flat(),
            has_candidate: self.candidate.is_some().into(),
            candidate: self.candidate.map_or_else(raw::Fit::default, |fit| fit.flat()),
            rejection_present: self.rejection.is_some().into(),
            rejection: self.rejection.map_or(0, FitRejection::number),
            total_iterations: self.total_iterations,
            capped_starts: self.capped_starts,
        }
    }
}
