//! What comes back instead of an answer.

use crate::raw;
use core::fmt;

/// Why a call has no answer. Where several apply, the first in this order comes back. Lent memory stays as it was.
#[derive(Clone, Copy, Debug, PartialEq, Eq, Hash)]
#[non_exhaustive]
pub enum Refusal {
    /// Number 1: the peak, the valley or the number of bins is below 2.
    TooSmall,
    /// Number 2: bins, the peak, the valley, a count, the window end or the runs are above 65,535; for a file, bins above 2,047.
    TooLarge,
    /// Number 3: a histogram file is broken at this place, in bytes from 0.
    BrokenFile {
        /// Where the number at fault starts.
        place: usize,
    },
    /// Number 4: all bins are zero.
    AllBinsZero,
    /// Number 5: the window end is 0, or beyond the bins.
    NoWindow,
    /// Number 6: every recovered bin in the window is zero.
    NothingRecovered,
    /// Number 7: a parameter list has the wrong length or does not lie in the lists, start tables are not rows of three, the shapes
    /// are not pairs, or the starts of a search are no whole number of lists.
    WrongLength,
    /// Number 8: a log probability scanned for the error mode is a NaN.
    NanScanned,
    /// Number 9: a converged run's cost is not finite or not above 0, or the mass limit is not finite or is below 1.
    WrongLimitOrCost,
    /// Number 10: lent memory is too short for the answer, for the shelf table, or for the runs of a search.
    TooShort,
    /// A number that this crate does not know.
    Unknown(u8),
}

impl Refusal {
    /// The number that `fogatise.h` gives it.
    pub const fn number(self) -> u8 {
        match self {
            Refusal::TooSmall => 1,
            Refusal::TooLarge => 2,
            Refusal::BrokenFile { .. } => 3,
            Refusal::AllBinsZero => 4,
            Refusal::NoWindow => 5,
            Refusal::NothingRecovered => 6,
            Refusal::WrongLength => 7,
            Refusal::NanScanned => 8,
            Refusal::WrongLimitOrCost => 9,
            Refusal::TooShort => 10,
            Refusal::Unknown(number) => number,
        }
    }

    /// The words of its number.
    const fn words(self) -> &'static str {
        match self {
            Refusal::TooSmall => "the peak, the valley or the number of bins is below 2",
            Refusal::TooLarge => "the bins, the peak, the valley, a count, the window end or the runs are above the limit",
            Refusal::BrokenFile { .. } => "the histogram file is broken",
            Refusal::AllBinsZero => "all bins are zero",
            Refusal::NoWindow => "the window end is 0, or beyond the bins",
            Refusal::NothingRecovered => "every recovered bin in the window is zero",
            Refusal::WrongLength => "a parameter list, a start table, the shapes or the starts have the wrong length",
            Refusal::NanScanned => "a log probability scanned for the error mode is a NaN",
            Refusal::WrongLimitOrCost => "a converged run's cost or the mass limit is not finite or too small",
            Refusal::TooShort => "lent memory is too short for the answer, the shelf table or the runs",
            Refusal::Unknown(_) => "a number that this version of the crate does not know",
        }
    }
}

impl fmt::Display for Refusal {
    fn fmt(&self, f: &mut fmt::Formatter<'_>) -> fmt::Result {
        write!(f, "refusal {}: {}", self.number(), self.words())?;
        match self {
            Refusal::BrokenFile { place } => write!(f, " at byte {place}"),
            _ => Ok(()),
        }
    }
}

#[cfg(feature = "std")]
impl std::error::Error for Refusal {}

/// Whether there is an answer: number 0. Only 3 has a place.
pub(crate) fn answered_at(number: u8, place: usize) -> Result<(), Refusal> {
    Err(match number {
        0 => return Ok(()),
        1 => Refusal::TooSmall,
        2 => Refusal::TooLarge,
        3 => Refusal::BrokenFile { place },
        4 => Refusal::AllBinsZero,
        5 => Refusal::NoWindow,
        6 => Refusal::NothingRecovered,
        7 => Refusal::WrongLength,
        8 => Refusal::NanScanned,
        9 => Refusal::WrongLimitOrCost,
        10 => Refusal::TooShort,
        other => Refusal::Unknown(other),
    })
}

pub(crate) fn answered(number: u8) -> Result<(), Refusal> {
    answered_at(number, 0)
}

pub(crate) fn value(answer: raw::Number) -> Result<f64, Refusal> {
    answered(answer.number)?;
    Ok(answer.value)
}

/// The part of the lent memory that was written.
pub(crate) fn written<T>(answer: raw::Written, lent: &mut [T]) -> Result<&mut [T], Refusal> {
    answered(answer.number)?;
    Ok(&mut lent[..answer.items])
}

#[cfg(test)]
mod tests {
    extern crate std;
    use super::*;
    use std::string::ToString;

    #[test]
    fn each_number_keeps_itself() {
        assert_eq!(answered(0), Ok(()));
        for number in 1..=255 {
            assert_eq!(answered(number).unwrap_err().number(), number);
        }
        assert_eq!(answered(11), Err(Refusal::Unknown(11)));
    }

    #[test]
    fn says_number_and_words() {
        assert_eq!(Refusal::AllBinsZero.to_string(), "refusal 4: all bins are zero");
        assert_eq!(Refusal::BrokenFile { place: 5 }.to_string(), "refusal 3: the histogram file is broken at byte 5");
    }
}
