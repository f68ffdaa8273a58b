//! A histogram with what is known of it, and what a search starts from.

use crate::raw;
use crate::refusal::{value, written};
use crate::Refusal;

/// A histogram, with its scale, its window and the two counts that its shape shows.
#[derive(Clone, Copy, Debug, PartialEq)]
pub struct Spectrum<'a> {
    /// Bin `i` is how many distinct k-mers of the library have the count `i + 1`: of a sketch, its counts times the scale.
    pub bins: &'a [u32],
    /// How many k-mers of the library one of the sample stands for: 1 for an exact table, or for bins that were never multiplied.
    /// What is not finite or is below 1 becomes 1.
    pub scale: f64,
    /// The counts 1 to this one are fitted.
    pub window_end: usize,
    /// The count of the dip between the errors and the genome's k-mers.
    pub valley: usize,
    /// The count where the genome's single-copy k-mers are most.
    pub peak: usize,
}

impl Spectrum<'_> {
    /// Writes the bins as the sample had them, each divided by the scale and rounded with halves away from zero, into the front of
    /// `out`, and answers that part. Refusals 1, 2 and 10.
    pub fn recover_bins<'o>(&self, out: &'o mut [u32]) -> Result<&'o mut [u32], Refusal> {
        let answer = unsafe { raw::fog_recover_bins(self.bins.as_ptr(), self.bins.len(), self.scale, out.as_mut_ptr(), out.len()) };
        written(answer, out)
    }

    /// The shelf share that a search starts from, between 0.01 and 0.4, from the counts around the valley and the peak. Refusals 1
    /// and 2.
    pub fn empirical_shelf_share(&self) -> Result<f64, Refusal> {
        value(unsafe { raw::fog_empirical_shelf_share(self.bins.as_ptr(), self.bins.len(), self.scale, self.valley, self.peak) })
    }
}
