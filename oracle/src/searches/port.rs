//! The port's searches, through its C interface. The declarations stand here alone.

use super::lent::{Lent, Report};
use crate::layer3::Problem;
use crate::port::Written;

extern "C" {
    fn fog_begin_searches(
        bins: *const u32,
        bins_length: usize,
        scale: f64,
        window_end: usize,
        peak: usize,
        error: u8,
        genome: u8,
        starts: *const f64,
        starts_length: usize,
        simplexes: *mut f64,
        simplexes_length: usize,
        iterations: *mut u64,
        iterations_length: usize,
        stopped: *mut u8,
        stopped_length: usize,
        ready: *mut f64,
        ready_length: usize,
        table: *mut f64,
        table_length: usize,
    ) -> Written;
    fn fog_run_searches(
        bins: *const u32,
        bins_length: usize,
        scale: f64,
        window_end: usize,
        peak: usize,
        error: u8,
        genome: u8,
        runs: usize,
        limit: u64,
        simplexes: *mut f64,
        simplexes_length: usize,
        iterations: *mut u64,
        iterations_length: usize,
        stopped: *mut u8,
        stopped_length: usize,
        ready: *mut f64,
        ready_length: usize,
        table: *mut f64,
        table_length: usize,
    ) -> Written;
    fn fog_report_searches(
        error: u8,
        genome: u8,
        runs: usize,
        simplexes: *const f64,
        simplexes_length: usize,
        iterations: *const u64,
        iterations_length: usize,
        stopped: *const u8,
        stopped_length: usize,
        converged: *mut u8,
        converged_length: usize,
        costs: *mut f64,
        costs_length: usize,
        places: *mut u64,
        places_length: usize,
        lengths: *mut u64,
        lengths_length: usize,
        caps: *mut u8,
        caps_length: usize,
    ) -> Written;
}

/// The problem's list has the starts, one behind the other; its table is not read. How many runs there are.
pub fn begin(p: &Problem, lent: &mut Lent) -> Written {
    let Lent { simplexes, iterations, stopped, ready, table } = lent;
    unsafe {
        fog_begin_searches(
            p.bins.as_ptr(),
            p.bins.len(),
            p.scale,
            p.window_end as usize,
            p.peak as usize,
            p.error,
            p.genome,
            p.theta.as_ptr(),
            p.theta.len(),
            simplexes.as_mut_ptr(),
            simplexes.len(),
            iterations.as_mut_ptr(),
            iterations.len(),
            stopped.as_mut_ptr(),
            stopped.len(),
            ready.as_mut_ptr(),
            ready.len(),
            table.as_mut_ptr(),
            table.len(),
        )
    }
}

/// Each run goes on for at most `limit` turns.
pub fn go_on(p: &Problem, runs: u64, limit: u64, lent: &mut Lent) -> Written {
    let Lent { simplexes, iterations, stopped, ready, table } = lent;
    unsafe {
        fog_run_searches(
            p.bins.as_ptr(),
            p.bins.len(),
            p.scale,
            p.window_end as usize,
            p.peak as usize,
            p.error,
            p.genome,
            runs as usize,
            limit,
            simplexes.as_mut_ptr(),
            simplexes.len(),
            iterations.as_mut_ptr(),
            iterations.len(),
            stopped.as_mut_ptr(),
            stopped.len(),
            ready.as_mut_ptr(),
            ready.len(),
            table.as_mut_ptr(),
            table.len(),
        )
    }
}

/// What the runs have come to, in the columns of a run table.
pub fn report((error, genome): (u8, u8), runs: u64, lent: &Lent, report: &mut Report) -> Written {
    let Lent { simplexes, iterations, stopped, .. } = lent;
    let Report { converged, costs, places, lengths, caps } = report;
    unsafe {
        fog_report_searches(
            error,
            genome,
            runs as usize,
            simplexes.as_ptr(),
            simplexes.len(),
            iterations.as_ptr(),
            iterations.len(),
            stopped.as_ptr(),
            stopped.len(),
            converged.as_mut_ptr(),
            converged.len(),
            costs.as_mut_ptr(),
            costs.len(),
            places.as_mut_ptr(),
            places.len(),
            lengths.as_mut_ptr(),
            lengths.len(),
            caps.as_mut_ptr(),
            caps.len(),
        )
    }
}
