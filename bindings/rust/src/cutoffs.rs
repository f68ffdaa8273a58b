//! The cutoffs of a fit: k-mers with a lower count are removed.

use crate::raw;
use crate::refusal::answered;
use crate::{Refusal, SpectrumFit};

/// The hole cutoff, and whether the guarantee holds of it.
#[derive(Clone, Copy, Debug, PartialEq, Eq, Hash)]
pub enum SureCutoff {
    /// It is proved that a cutoff of 3 or more removes at most the allowed share, that with any cutoff the sum up to and including
    /// it exceeds that share, and that with none the sum below the ceiling is at most that share: each up to one part in 2^36, in
    /// exact arithmetic on the probabilities.
    Sure(Option<u16>),
    /// The allowed share is not finite, or a probability does not lie between 0 and 2.
    NotSure(Option<u16>),
    /// There is nothing to walk over, and no cutoff: no genome k-mers, a mean that is not finite or is below 2, or a window end
    /// below 2.
    NoWalk,
}

impl SpectrumFit {
    /// The largest cutoff that removes at most `budget` of the genome's k-mers by the fit, and 2 at least, where more may be removed.
    /// Cut there, or at the valley where that is smaller: a smaller cutoff keeps the budget too.
    /// None is not "keep everything": either every cutoff up to the mean removes at most that, or there is nothing to walk over, and
    /// [`SpectrumFit::hole_cutoff_sure`] tells which. Refusals 2 and 5.
    pub fn hole_cutoff(&self, budget: f64) -> Result<Option<u16>, Refusal> {
        cutoff(unsafe { raw::fog_hole_cutoff(self.flat(), budget) })
    }

    /// The same cutoff, and whether it is sure. Refusals 2 and 5.
    pub fn hole_cutoff_sure(&self, budget: f64) -> Result<SureCutoff, Refusal> {
        let answer = unsafe { raw::fog_hole_cutoff_sure(self.flat(), budget) };
        answered(answer.number)?;
        Ok(match (answer.walk, answer.sure) {
            (0, _) => SureCutoff::NoWalk,
            (_, 0) => SureCutoff::NotSure(part(answer.cutoff)),
            _ => SureCutoff::Sure(part(answer.cutoff)),
        })
    }

    /// The first count where the single-copy component stands above the error component, and 2 at least; none where there is no such
    /// count below the rounded mean and the window end, the mean is not finite, or either is below 2. Refusals 2 and 5.
    pub fn crossover(&self) -> Result<Option<u16>, Refusal> {
        cutoff(unsafe { raw::fog_crossover(self.flat()) })
    }

    /// One past the last count of the window where the error component is at least as high as the single-copy component at its own
    /// mode, 65,535 at most and 2 at least. Refusals 2 and 5.
    pub fn error_floor_cutoff(&self) -> Result<u16, Refusal> {
        let answer = unsafe { raw::fog_error_floor_cutoff(self.flat()) };
        answered(answer.number)?;
        Ok(answer.cutoff)
    }
}

fn cutoff(answer: raw::Cutoff) -> Result<Option<u16>, Refusal> {
    answered(answer.number)?;
    Ok(part(answer.cutoff))
}

/// A cutoff is 2 at least, and 0 stands for none.
fn part(cutoff: u16) -> Option<u16> {
    match cutoff {
        0 => None,
        _ => Some(cutoff),
    }
}
