//! The port's attempts over a run table, through the two forms of its C interface.

use super::RunTable;
use crate::port::Attempt;

#[repr(C)]
pub struct AttemptAnswer {
    pub number: u8,
    pub attempt: Attempt,
}

/// The numbers of an attempt.
#[repr(C)]
struct Setup {
    scale: f64,
    window_end: usize,
    valley: usize,
    peak: usize,
    error: u8,
    genome: u8,
    mass_limit: f64,
}

/// A run as a struct.
#[repr(C)]
struct FlatRun {
    converged: u8,
    cost: f64,
    place: usize,
    length: usize,
    iterations: u64,
    hit_cap: u8,
}

extern "C" {
    fn fog_attempt_from_numbers(
        bins: *const u32,
        bins_length: usize,
        scale: f64,
        window_end: usize,
        valley: usize,
        peak: usize,
        error: u8,
        genome: u8,
        mass_limit: f64,
        converged: *const u8,
        converged_length: usize,
        costs: *const f64,
        costs_length: usize,
        places: *const u64,
        places_length: usize,
        lengths: *const u64,
        lengths_length: usize,
        iterations: *const u64,
        iterations_length: usize,
        caps: *const u8,
        caps_length: usize,
        lists: *const f64,
        lists_length: usize,
        table: *mut f64,
        room: usize,
    ) -> AttemptAnswer;
    fn fog_attempt_from(
        bins: *const u32,
        bins_length: usize,
        setup: Setup,
        runs: *const FlatRun,
        runs_length: usize,
        lists: *const f64,
        lists_length: usize,
        table: *mut f64,
        room: usize,
    ) -> AttemptAnswer;
}

/// The shelf's table is lent apart from the run table.
pub fn attempt_from_numbers(t: &RunTable, table: &mut [f64]) -> AttemptAnswer {
    let (p, room) = (&t.problem, table.len());
    unsafe {
        fog_attempt_from_numbers(
            p.bins.as_ptr(),
            p.bins.len(),
            p.scale,
            p.window_end as usize,
            t.valley as usize,
            p.peak as usize,
            p.error,
            p.genome,
            t.mass_limit,
            t.converged.as_ptr(),
            t.converged.len(),
            t.costs.as_ptr(),
            t.costs.len(),
            t.places.as_ptr(),
            t.places.len(),
            t.lengths.as_ptr(),
            t.lengths.len(),
            t.iterations.as_ptr(),
            t.iterations.len(),
            t.caps.as_ptr(),
            t.caps.len(),
            p.theta.as_ptr(),
            p.theta.len(),
            table.as_mut_ptr(),
            room,
        )
    }
}

impl FlatRun {
    fn of(t: &RunTable, i: usize) -> FlatRun {
        FlatRun {
            converged: t.converged[i],
            cost: t.costs[i],
            place: t.places[i] as usize,
            length: t.lengths[i] as usize,
            iterations: t.iterations[i],
            hit_cap: t.caps[i],
        }
    }
}

/// The same over run structs.
pub fn attempt_from(t: &RunTable, table: &mut [f64]) -> AttemptAnswer {
    let (p, room) = (&t.problem, table.len());
    let runs: Vec<FlatRun> = (0..t.runs().len()).map(|i| FlatRun::of(t, i)).collect();
    let setup = Setup {
        scale: p.scale,
        window_end: p.window_end as usize,
        valley: t.valley as usize,
        peak: p.peak as usize,
        error: p.error,
        genome: p.genome,
        mass_limit: t.mass_limit,
    };
    let (bins, length, lists, listed) = (p.bins.as_ptr(), p.bins.len(), p.theta.as_ptr(), p.theta.len());
    unsafe { fog_attempt_from(bins, length, setup, runs.as_ptr(), runs.len(), lists, listed, table.as_mut_ptr(), room) }
}
