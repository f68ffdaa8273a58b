//! The cost of a parameter list, and a converged list as a fit.

use crate::raw;
use crate::refusal::{answered, value, written};
use crate::{Configuration, Refusal, Spectrum, SpectrumFit};

/// What the costs of one window have in common, as [`prepare_window`] wrote it.
#[derive(Clone, Copy, Debug)]
pub struct Prepared<'a> {
    ready: &'a [f64],
}

/// Prepares a window for [`Spectrum::cost_prepared`] in the first `2 * (window_end + 2)` entries of `out`. Refusals 2, 5 and 10.
pub fn prepare_window(window_end: usize, out: &mut [f64]) -> Result<Prepared<'_>, Refusal> {
    let answer = unsafe { raw::fog_prepare_window(window_end, out.as_mut_ptr(), out.len()) };
    Ok(Prepared { ready: written(answer, out)? })
}

impl Spectrum<'_> {
    /// The negative log-likelihood of the window at the parameters of a list, and +inf for what the model can't use.
    ///
    /// With a shelf family `table` needs `window_end + 1` entries, and holds the shelf table afterwards; a plain one needs none. The
    /// valley is not read. Refusals 1, 2, 4, 5, 6, 7 and 10.
    pub fn cost(&self, configuration: Configuration, theta: &[f64], table: &mut [f64]) -> Result<f64, Refusal> {
        value(unsafe {
            raw::fog_cost(
                self.bins.as_ptr(),
                self.bins.len(),
                self.scale,
                self.window_end,
                self.peak,
                configuration.error.flat(),
                configuration.genome.flat(),
                theta.as_ptr(),
                theta.len(),
                table.as_mut_ptr(),
                table.len(),
            )
        })
    }

    /// What [`Spectrum::cost`] answers, bit for bit and faster. Refusal 10 also where a smaller window was prepared.
    pub fn cost_prepared(
        &self,
        configuration: Configuration,
        theta: &[f64],
        prepared: Prepared<'_>,
        table: &mut [f64],
    ) -> Result<f64, Refusal> {
        value(unsafe {
            raw::fog_cost_prepared(
                self.bins.as_ptr(),
                self.bins.len(),
                self.scale,
                self.window_end,
                self.peak,
                configuration.error.flat(),
                configuration.genome.flat(),
                theta.as_ptr(),
                theta.len(),
                prepared.ready.as_ptr(),
                prepared.ready.len(),
                table.as_mut_ptr(),
                table.len(),
            )
        })
    }

    /// A converged list as a fit. The cost is what [`Spectrum::cost`] answered for it, and is not worked out again: likelihood and BIC
    /// rest on it. The table is as there, and so are the refusals.
    pub fn unpack(
        &self,
        configuration: Configuration,
        theta: &[f64],
        cost: f64,
        iterations: u64,
        table: &mut [f64],
    ) -> Result<SpectrumFit, Refusal> {
        let answer = unsafe {
            raw::fog_unpack(
                self.bins.as_ptr(),
                self.bins.len(),
                self.scale,
                self.window_end,
                self.peak,
                configuration.error.flat(),
                configuration.genome.flat(),
                theta.as_ptr(),
                theta.len(),
                cost,
                iterations,
                table.as_mut_ptr(),
                table.len(),
            )
        };
        answered(answer.number)?;
        Ok(SpectrumFit::of(answer.fit))
    }
}
