//! The shelf under the single-copy lobe, and its table.

use crate::raw;
use crate::refusal::written;
use crate::Refusal;

/// The shelf: its share of the single-copy component, and the two shapes of its beta-binomial.
#[derive(Clone, Copy, Debug, PartialEq)]
pub struct Shelf {
    /// The part of the single-copy k-mers that the shelf holds.
    pub share: f64,
    /// The beta-binomial's first shape.
    pub alpha: f64,
    /// The beta-binomial's second shape.
    pub beta: f64,
}

/// The shelf's trials: the mean, rounded with halves away from zero, and 1 at least.
pub fn shelf_trials(mean: f64) -> f64 {
    unsafe { raw::fog_shelf_trials(mean) }
}

/// Writes the shelf's log density at the counts 0 to `min(shelf_trials(mean), top)` into the front of `table`, and answers that
/// part. Refusals 2, 5 and 10.
pub fn shelf_log_table(mean: f64, shelf: Shelf, top: usize, table: &mut [f64]) -> Result<&mut [f64], Refusal> {
    let answer = unsafe { raw::fog_shelf_log_table(mean, shelf.flat(), top, table.as_mut_ptr(), table.len()) };
    written(answer, table)
}

impl Shelf {
    fn flat(self) -> raw::Shelf {
        raw::Shelf { share: self.share, alpha: self.alpha, beta: self.beta }
    }
}

/// Whether there is a shelf, and its numbers.
pub(crate) fn flat(shelf: Option<Shelf>) -> (u8, raw::Shelf) {
    match shelf {
        None => (0, raw::Shelf::default()),
        Some(shelf) => (1, shelf.flat()),
    }
}

pub(crate) fn of(present: u8, shelf: raw::Shelf) -> Option<Shelf> {
    match present {
        0 => None,
        _ => Some(Shelf { share: shelf.share, alpha: shelf.alpha, beta: shelf.beta }),
    }
}
