//! The simplex search: many runs at once, in lent memory.

use crate::raw;
use crate::refusal::answered;
use crate::{Configuration, Refusal, RunColumns, Spectrum};

/// The runs of a search: all that is to be stored of runs that are to go on later.
///
/// With `w = configuration.list_length() + 1`, a simplex is `w` rows of `w` numbers, one behind the other; a row is a cost, and then the
/// list that has it.
#[derive(Debug, PartialEq)]
pub struct Searches<'a> {
    /// The simplexes of the runs, one behind the other: `w * w` numbers for each run.
    pub simplexes: &'a mut [f64],
    /// How many iterations each run has made.
    pub iterations: &'a mut [u64],
    /// 0 where the test has not stopped it, and any other byte where it has; a call writes 0 or 1.
    pub stopped: &'a mut [u8],
}

/// What a search works in. What it holds before a call does not matter, and after one it is of no use.
#[derive(Debug, PartialEq)]
pub struct Scratch<'a> {
    /// `2 * (window_end + 2)` numbers, or more.
    pub ready: &'a mut [f64],
    /// With a shelf family `window_end + 1` numbers, or more; a plain one needs none.
    pub table: &'a mut [f64],
}

/// Room for what runs have come to: as many entries in each slice as there are runs, or more.
#[derive(Debug, PartialEq)]
pub struct ReportRoom<'a> {
    /// 1 where the test has stopped the run and its cost is finite and above 0, else 0.
    pub converged: &'a mut [u8],
    /// The least cost in its simplex.
    pub costs: &'a mut [f64],
    /// Where the list with that cost starts in the simplexes.
    pub places: &'a mut [usize],
    /// The length of that list.
    pub lengths: &'a mut [usize],
    /// 1 where the cap has ended it, else 0.
    pub caps: &'a mut [u8],
}

impl Spectrum<'_> {
    /// Makes a run of each start in the front of `searches`, and answers how many runs that are. A start's simplex is the start and, for
    /// each number of it in turn, the start with 0.5 added to that number.
    ///
    /// `starts` are lists one behind the other, as [`fit_starts`](crate::fit_starts) answers them. The valley is not read. Refusals 1, 2,
    /// 4, 5, 6, 7 (the starts are no whole number of lists) and 10.
    pub fn begin_searches(
        &self,
        configuration: Configuration,
        starts: &[f64],
        searches: &mut Searches<'_>,
        scratch: &mut Scratch<'_>,
    ) -> Result<usize, Refusal> {
        let answer = unsafe {
            raw::fog_begin_searches(
                self.bins.as_ptr(),
                self.bins.len(),
                self.scale,
                self.window_end,
                self.peak,
                configuration.error.flat(),
                configuration.genome.flat(),
                starts.as_ptr(),
                starts.len(),
                searches.simplexes.as_mut_ptr(),
                searches.simplexes.len(),
                searches.iterations.as_mut_ptr(),
                searches.iterations.len(),
                searches.stopped.as_mut_ptr(),
                searches.stopped.len(),
                scratch.ready.as_mut_ptr(),
                scratch.ready.len(),
                scratch.table.as_mut_ptr(),
                scratch.table.len(),
            )
        };
        answered(answer.number)?;
        Ok(answer.items)
    }

    /// Lets each of the first `runs` runs go on for at most `limit` turns: the test, and an iteration where it does not stop the run. The
    /// cap, 1,000 iterations and 2,000 with a shelf family, ends a run untested, so a limit of 2,000 or more ends every run.
    ///
    /// A limit of `n` and then one of `m` leave in `searches` what a limit of `n + m` leaves. The spectrum and the configuration are those
    /// that the runs were begun with. The answer is `runs`. Refusals 1, 2, 4, 5, 6 and 10.
    pub fn run_searches(
        &self,
        configuration: Configuration,
        runs: usize,
        limit: u64,
        searches: &mut Searches<'_>,
        scratch: &mut Scratch<'_>,
    ) -> Result<usize, Refusal> {
        let answer = unsafe {
            raw::fog_run_searches(
                self.bins.as_ptr(),
                self.bins.len(),
                self.scale,
                self.window_end,
                self.peak,
                configuration.error.flat(),
                configuration.genome.flat(),
                runs,
                limit,
                searches.simplexes.as_mut_ptr(),
                searches.simplexes.len(),
                searches.iterations.as_mut_ptr(),
                searches.iterations.len(),
                searches.stopped.as_mut_ptr(),
                searches.stopped.len(),
                scratch.ready.as_mut_ptr(),
                scratch.ready.len(),
                scratch.table.as_mut_ptr(),
                scratch.table.len(),
            )
        };
        answered(answer.number)?;
        Ok(answer.items)
    }
}

impl Configuration {
    /// What the first `runs` runs have come to, as the run table that
    /// [`attempt_from_numbers`](crate::Spectrum::attempt_from_numbers) takes: its lists lie in the simplexes. A run that is still to go on
    /// has neither converged nor come to its cap. Refusals 2 and 10.
    pub fn report_searches<'a>(
        self,
        runs: usize,
        searches: &'a Searches<'_>,
        room: &'a mut ReportRoom<'_>,
    ) -> Result<RunColumns<'a>, Refusal> {
        let answer = unsafe {
            raw::fog_report_searches(
                self.error.flat(),
                self.genome.flat(),
                runs,
                searches.simplexes.as_ptr(),
                searches.simplexes.len(),
                searches.iterations.as_ptr(),
                searches.iterations.len(),
                searches.stopped.as_ptr(),
                searches.stopped.len(),
                room.converged.as_mut_ptr(),
                room.converged.len(),
                room.costs.as_mut_ptr(),
                room.costs.len(),
                room.places.as_mut_ptr(),
                room.places.len(),
                room.lengths.as_mut_ptr(),
                room.lengths.len(),
                room.caps.as_mut_ptr(),
                room.caps.len(),
            )
        };
        answered(answer.number)?;
        Ok(RunColumns {
            converged: &room.converged[..answer.items],
            costs: &room.costs[..answer.items],
            places: &room.places[..answer.items],
            lengths: &room.lengths[..answer.items],
            iterations: &searches.iterations[..answer.items],
            caps: &room.caps[..answer.items],
            lists: searches.simplexes,
        })
    }
}
