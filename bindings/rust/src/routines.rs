//! The four routines that everything else is worked out by. Special values follow ISO C Annex F.

use crate::raw;

/// e^x, never negative.
pub fn exp(x: f64) -> f64 {
    unsafe { raw::fog_exp(x) }
}

/// The natural logarithm: -inf at either zero, a NaN below.
pub fn ln(x: f64) -> f64 {
    unsafe { raw::fog_ln(x) }
}

/// e^x - 1. A zero keeps its sign.
pub fn expm1(x: f64) -> f64 {
    unsafe { raw::fog_expm1(x) }
}

/// ln |Gamma(x)|: +inf at 0, at the negative whole numbers and at either infinity.
pub fn lgamma(x: f64) -> f64 {
    unsafe { raw::fog_lgamma(x) }
}
