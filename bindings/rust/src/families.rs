//! The families of the error and of the genome component.

use crate::raw;

/// The family of the error component.
#[derive(Clone, Copy, Debug, PartialEq, Eq, Hash)]
pub enum ErrorModel {
    /// Count 1 has a probability of its own, and a Weibull-like tail follows.
    FreeSingletonWeibull,
    /// The same with a Pareto tail.
    SingletonPareto,
}

/// The family of the single-copy component.
#[derive(Clone, Copy, Debug, PartialEq, Eq, Hash)]
pub enum GenomeModel {
    /// A negative binomial.
    NegativeBinomial,
    /// The same with a shelf, for k-mers that lost a part of their coverage.
    ShelfNegativeBinomial,
}

/// An error family and a genome family: four configurations in all.
#[derive(Clone, Copy, Debug, PartialEq, Eq, Hash)]
pub struct Configuration {
    /// The error family.
    pub error: ErrorModel,
    /// The genome family.
    pub genome: GenomeModel,
}

impl ErrorModel {
    /// How many numbers of a parameter list stand before the genome family's own: 7 for Weibull, 6 for Pareto.
    pub fn parameter_count(self) -> usize {
        unsafe { raw::fog_parameter_count(self.flat()) }
    }

    pub(crate) fn of(number: u8) -> ErrorModel {
        match number {
            0 => ErrorModel::FreeSingletonWeibull,
            _ => ErrorModel::SingletonPareto,
        }
    }

    pub(crate) fn flat(self) -> u8 {
        match self {
            ErrorModel::FreeSingletonWeibull => 0,
            ErrorModel::SingletonPareto => 1,
        }
    }
}

impl GenomeModel {
    /// How many numbers of a parameter list are the genome family's own: 1, and 4 with a shelf.
    pub fn extra_parameters(self) -> usize {
        unsafe { raw::fog_extra_parameters(self.flat()) }
    }

    pub(crate) fn of(number: u8) -> GenomeModel {
        match number {
            0 => GenomeModel::NegativeBinomial,
            _ => GenomeModel::ShelfNegativeBinomial,
        }
    }

    pub(crate) fn flat(self) -> u8 {
        match self {
            GenomeModel::NegativeBinomial => 0,
            GenomeModel::ShelfNegativeBinomial => 1,
        }
    }
}

impl Configuration {
    /// The length of a parameter list: Weibull 8, Weibull with shelf 11, Pareto 7, Pareto with shelf 10.
    pub fn list_length(self) -> usize {
        unsafe { raw::fog_list_length(self.error.flat(), self.genome.flat()) }
    }
}
