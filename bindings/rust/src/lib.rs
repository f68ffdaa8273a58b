//! Fogatise from Rust: from the k-mer histogram of a sequencing sample to a coverage cutoff.
//!
//! This is a safe wrapper over the static library `libexports.a`, in which every function is proved to meet its contract; the wrapper
//! itself is tested, not proved. Every call ends and answers for every argument, NaN and infinities included. Nothing is allocated:
//! where an answer or a table needs room, the caller lends a slice. A call that can't answer gives a [`Refusal`], and lent memory then
//! stands as it was. The header `fogatise.h` says more of each call, and what each number of a parameter list stands for;
//! `docs/GLOSSARY.md` says what the words mean.
//!
//! # Floating point
//!
//! The library is for x86-64 Linux. It rests on the state that a program starts with, which Rust assumes too: numbers are rounded to
//! nearest, flush-to-zero and denormals-are-zero are off, and floating-point exceptions are masked. C code in the same program that
//! changes one of these, such as `feenableexcept` or an object linked with `-ffast-math`, changes answers or ends the program.
//! Infinities and NaNs are ordinary values here; the sign and payload of a NaN that comes back are not part of an answer.
//!
//! # From a histogram to the cutoffs
//!
//! The library makes the starts, searches from each of them, and takes the runs:
//!
//! ```
#![doc = include_str!("../tests/searches.rs")]
//! ```
//!
//! # From a run table to the cutoffs
//!
//! Another search may take the place of the library's own: it lowers the cost of a list ([`Spectrum::cost`], or faster
//! [`Spectrum::cost_prepared`]), and hands its runs over:
//!
//! ```
#![doc = include_str!("../tests/path.rs")]
//! ```
#![no_std]
#![warn(missing_docs)]

#[cfg(not(all(target_arch = "x86_64", target_os = "linux", target_pointer_width = "64")))]
compile_error!("Fogatise's library is compiled for x86-64 Linux: build with --target x86_64-unknown-linux-gnu");

#[cfg(feature = "std")]
extern crate std;

mod attempts;
mod cost;
mod cutoffs;
mod densities;
mod families;
mod fit;
mod histogram;
mod raw;
mod refusal;
mod rejection;
mod routines;
mod searches;
mod selection;
mod shelf;
mod spectrum;
mod starts;

pub use attempts::{FitAttempt, Run, RunColumns};
pub use cost::{prepare_window, Prepared};
pub use cutoffs::SureCutoff;
pub use densities::{discrete_nb_mode, ln_dbetabinom, ln_dnbinom, ln_single_copy, log_nb_mass, mix_single_copy, single_copy_log_mass};
pub use families::{Configuration, ErrorModel, GenomeModel};
pub use fit::{ErrorParams, Heights, SpectrumFit};
pub use histogram::{read_histogram, write_histogram, MOST_FILE_BINS, MOST_FILE_BYTES};
pub use refusal::Refusal;
pub use rejection::FitRejection;
pub use routines::{exp, expm1, lgamma, ln};
pub use searches::{ReportRoom, Scratch, Searches};
pub use selection::select_fit;
pub use shelf::{shelf_log_table, shelf_trials, Shelf};
pub use spectrum::Spectrum;
pub use starts::{fit_starts, fit_starts_lent, Seeds, StartTables};
