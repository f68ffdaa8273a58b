//! The port's prepared window, through its C interface.

use crate::layer3::Problem;
use crate::port::{Number, Written};

extern "C" {
    fn fog_prepare_window(window_end: usize, out: *mut f64, length: usize) -> Written;
    fn fog_cost_prepared(
        bins: *const u32,
        length: usize,
        scale: f64,
        window_end: usize,
        peak: usize,
        error: u8,
        genome: u8,
        theta: *const f64,
        listed: usize,
        ready: *const f64,
        prepared: usize,
        table: *mut f64,
        room: usize,
    ) -> Number;
}

/// How many entries a window takes.
pub fn entries(window_end: u64) -> u64 {
    2 * (window_end + 2)
}

pub fn prepare_window(window_end: usize, out: &mut [f64]) -> Written {
    unsafe { fog_prepare_window(window_end, out.as_mut_ptr(), out.len()) }
}

/// A window's slice as it is filled.
pub fn window(window_end: u64) -> Vec<f64> {
    let mut ready = vec![0.0; entries(window_end) as usize];
    let written = prepare_window(window_end as usize, &mut ready);
    assert!(written.number == 0 && written.items == ready.len(), "the window is not prepared");
    ready
}

pub fn cost(p: &Problem, ready: &[f64], table: &mut [f64]) -> Number {
    let (bins, length, theta, listed) = (p.bins.as_ptr(), p.bins.len(), p.theta.as_ptr(), p.theta.len());
    let (end, peak, room) = (p.window_end as usize, p.peak as usize, table.len());
    let (held, prepared, table) = (ready.as_ptr(), ready.len(), table.as_mut_ptr());
    unsafe { fog_cost_prepared(bins, length, p.scale, end, peak, p.error, p.genome, theta, listed, held, prepared, table, room) }
}
