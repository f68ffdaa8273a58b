//! The validator and its reasons.

use crate::raw;
use crate::refusal::answered;
use crate::{Refusal, SpectrumFit};
use core::fmt;

/// Why a fit is not used: no run converged, or the first of the validator's ten rules that turns it away.
#[derive(Clone, Copy, Debug, PartialEq, Eq, Hash)]
pub enum FitRejection {
    /// No run converged.
    OptimisationFailed,
    /// Rule 1: the log-likelihood, BIC or deviance is not finite.
    NonFiniteLikelihood,
    /// Rule 2: a weight is outside 0 to 1 or a NaN, the mean not finite or not above 0, the dispersion not finite or below 1, or the
    /// shelf invalid.
    InvalidComponents,
    /// Rule 3: a component's log mass in the window is not finite or above 1e-12.
    InvalidWindowMass,
    /// Rule 4: the components' total exceeds the spectrum's by more than the mass limit.
    ComponentMassExceeded,
    /// Rule 5: the mode that mean and dispersion give back is off by more than 0.5.
    UnstableModeParameterisation,
    /// Rule 6: the primary mode is 0 or above the window end.
    GenomeLobeOutsideFitWindow,
    /// Rule 7: the error mode is above the valley, or its scan meets a NaN.
    ErrorModePastValley,
    /// Rule 8: the primary mode is too far from the peak.
    PrimaryModeOutsideBand,
    /// Rule 9: the repeat mode is not above the primary one.
    RepeatModeTooEarly,
    /// Rule 10: the log-likelihood is above 0.
    PositiveLogLikelihood,
}

impl FitRejection {
    /// The rule's number, and 0 where no run converged.
    pub const fn number(self) -> u8 {
        self as u8
    }

    /// Any other number is the first, as in `fogatise.h`.
    pub(crate) fn of(number: u8) -> FitRejection {
        match number {
            1 => FitRejection::NonFiniteLikelihood,
            2 => FitRejection::InvalidComponents,
            3 => FitRejection::InvalidWindowMass,
            4 => FitRejection::ComponentMassExceeded,
            5 => FitRejection::UnstableModeParameterisation,
            6 => FitRejection::GenomeLobeOutsideFitWindow,
            7 => FitRejection::ErrorModePastValley,
            8 => FitRejection::PrimaryModeOutsideBand,
            9 => FitRejection::RepeatModeTooEarly,
            10 => FitRejection::PositiveLogLikelihood,
            _ => FitRejection::OptimisationFailed,
        }
    }

    /// The words of its number.
    const fn words(self) -> &'static str {
        match self {
            FitRejection::OptimisationFailed => "no run converged",
            FitRejection::NonFiniteLikelihood => "the log-likelihood, BIC or deviance is not finite",
            FitRejection::InvalidComponents => "a weight, the mean, the dispersion or the shelf is invalid",
            FitRejection::InvalidWindowMass => "a component's mass in the window is invalid",
            FitRejection::ComponentMassExceeded => "the components' total exceeds the mass limit",
            FitRejection::UnstableModeParameterisation => "the mode does not come back from mean and dispersion",
            FitRejection::GenomeLobeOutsideFitWindow => "the primary mode is outside the window",
            FitRejection::ErrorModePastValley => "the error mode is above the valley",
            FitRejection::PrimaryModeOutsideBand => "the primary mode is too far from the peak",
            FitRejection::RepeatModeTooEarly => "the repeat mode is not above the primary mode",
            FitRejection::PositiveLogLikelihood => "the log-likelihood is above 0",
        }
    }
}

impl fmt::Display for FitRejection {
    fn fmt(&self, f: &mut fmt::Formatter<'_>) -> fmt::Result {
        match self {
            FitRejection::OptimisationFailed => f.write_str(self.words()),
            _ => write!(f, "rule {}: {}", self.number(), self.words()),
        }
    }
}

impl SpectrumFit {
    /// The first rule that turns the fit away, and none for a valid one. The mass limit is 1 or more. Refusals 1, 2, 5 and 9.
    pub fn validate(&self, valley: usize, peak: usize, mass_limit: f64) -> Result<Option<FitRejection>, Refusal> {
        let answer = unsafe { raw::fog_validate_fit(self.flat(), valley, peak, mass_limit) };
        answered(answer.number)?;
        Ok(match answer.reason {
            0 => None,
            reason => Some(FitRejection::of(reason)),
        })
    }
}

#[cfg(test)]
mod tests {
    extern crate std;
    use super::*;
    use std::string::ToString;

    #[test]
    fn each_rule_keeps_its_number() {
        for number in 0..=10 {
            assert_eq!(FitRejection::of(number).number(), number);
        }
        assert_eq!(FitRejection::of(11), FitRejection::OptimisationFailed);
    }

    #[test]
    fn says_rule_and_words() {
        assert_eq!(FitRejection::OptimisationFailed.to_string(), "no run converged");
        assert_eq!(FitRejection::PositiveLogLikelihood.to_string(), "rule 10: the log-likelihood is above 0");
    }
}
