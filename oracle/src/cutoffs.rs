//! The port's cutoffs, through its C interface.

use crate::port::Fit;

/// The number, and the cutoff or 0 for none.
#[repr(C)]
pub struct Cutoff {
    pub number: u8,
    pub cutoff: u16,
}

#[repr(C)]
pub struct SureCutoff {
    pub number: u8,
    pub walk: u8,
    pub sure: u8,
    pub cutoff: u16,
}

extern "C" {
    fn fog_hole_cutoff(fit: Fit, budget: f64) -> Cutoff;
    fn fog_hole_cutoff_sure(fit: Fit, budget: f64) -> SureCutoff;
    fn fog_crossover(fit: Fit) -> Cutoff;
    fn fog_error_floor_cutoff(fit: Fit) -> Cutoff;
}

pub fn hole_cutoff(fit: Fit, budget: f64) -> Cutoff {
    unsafe { fog_hole_cutoff(fit, budget) }
}

pub fn hole_cutoff_sure(fit: Fit, budget: f64) -> SureCutoff {
    unsafe { fog_hole_cutoff_sure(fit, budget) }
}

pub fn crossover(fit: Fit) -> Cutoff {
    unsafe { fog_crossover(fit) }
}

pub fn error_floor_cutoff(fit: Fit) -> Cutoff {
    unsafe { fog_error_floor_cutoff(fit) }
}
