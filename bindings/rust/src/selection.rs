//! The fit that is used.

use crate::raw;
use crate::{FitAttempt, SpectrumFit};

/// The valid candidate of lowest BIC; none where no attempt is valid. The attempts are gone through in order, and a later one takes
/// the place of the best only where its BIC is below the best's by more than `1e-9 * (1 + the larger |BIC|)`.
pub fn select_fit(attempts: &[FitAttempt; 4]) -> Option<SpectrumFit> {
    let [first, second, third, fourth] = attempts;
    let answer = unsafe { raw::fog_select_fit(first.flat(), second.flat(), third.flat(), fourth.flat()) };
    match answer.found {
        0 => None,
        _ => Some(SpectrumFit::of(answer.fit)),
    }
}
