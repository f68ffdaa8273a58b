//! The port's heights at many counts in one call, through its C interface.

use crate::port::{Fit, Written};

extern "C" {
    fn fog_component_heights_to(fit: Fit, last: usize, out: *mut f64, length: usize) -> Written;
}

/// Of the counts 1 to `last`, three after three.
pub fn component_heights_to(fit: Fit, last: usize, out: &mut [f64]) -> Written {
    unsafe { fog_component_heights_to(fit, last, out.as_mut_ptr(), out.len()) }
}
