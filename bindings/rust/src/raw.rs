//! The C interface as `fogatise.h` has it. `tests/header` holds these structs and functions against the header.
//!
//! Each function may be called with any numbers, and with any pointer and length that are those of one slice: it reads and
//! writes nothing else, keeps no pointer, and returns. A slice that it writes to must be lent as `&mut`. That is why each `unsafe`
//! of this crate is sound.
#![deny(dead_code, improper_ctypes)]

#[repr(C)]
pub struct Number {
    pub number: u8,
    pub value: f64,
}

#[repr(C)]
pub struct Written {
    pub number: u8,
    pub items: usize,
}

#[repr(C)]
pub struct Count {
    pub number: u8,
    pub count: u64,
}

#[repr(C)]
pub struct Heights {
    pub number: u8,
    pub error: f64,
    pub single: f64,
    pub repeat: f64,
}

#[repr(C)]
pub struct Cutoff {
    pub number: u8,
    pub cutoff: u16,
}

#[repr(C)]
pub struct SureCutoff {
    pub number: u8,
    pub walk: u8,
    pub sure: u8,
    pub cutoff: u16,
}

#[repr(C)]
#[derive(Default)]
pub struct Shelf {
    pub share: f64,
    pub alpha: f64,
    pub beta: f64,
}

#[repr(C)]
#[derive(Default)]
pub struct Errors {
    pub singleton_probability: f64,
    pub tail_exponent: f64,
    pub shape_present: u8,
    pub weibull_shape: f64,
}

#[repr(C)]
#[derive(Default)]
pub struct Fit {
    pub error_model: u8,
    pub genome_model: u8,
    pub w_error: f64,
    pub w_single: f64,
    pub w_repeat: f64,
    pub mean: f64,
    pub dispersion: f64,
    pub target_mode: f64,
    pub error_params: Errors,
    pub shelf_present: u8,
    pub shelf: Shelf,
    pub repeat_ratio: f64,
    pub genome_kmers: f64,
    pub error_kmers: f64,
    pub repeat_kmers: f64,
    pub log_likelihood: f64,
    pub bic: f64,
    pub deviance: f64,
    pub fit_window_end: usize,
    pub best_iterations: u64,
    pub component_log_window_masses: [f64; 3],
    pub component_log_totals: [f64; 3],
    pub observed_total: f64,
    pub full_distinct_total: f64,
}

#[repr(C)]
pub struct FitAnswer {
    pub number: u8,
    pub fit: Fit,
}

#[repr(C)]
pub struct Verdict {
    pub number: u8,
    pub reason: u8,
}

#[repr(C)]
pub struct Attempt {
    pub error_model: u8,
    pub genome_model: u8,
    pub has_candidate: u8,
    pub candidate: Fit,
    pub rejection_present: u8,
    pub rejection: u8,
    pub total_iterations: u64,
    pub capped_starts: u32,
}

#[repr(C)]
pub struct Setup {
    pub scale: f64,
    pub window_end: usize,
    pub valley: usize,
    pub peak: usize,
    pub error: u8,
    pub genome: u8,
    pub mass_limit: f64,
}

/// A run of the search. Where it did not converge, its cost and its list are not looked at.
#[repr(C)]
#[derive(Clone, Copy, Debug, Default, PartialEq)]
pub struct Run {
    /// 0 where it did not converge, and any other byte where it did. One that did not counts for its iterations and its cap alone.
    pub converged: u8,
    /// Its cost, which is finite and above 0 for a converged run.
    pub cost: f64,
    /// Where its parameter list starts in the lists that are handed over beside it.
    pub place: usize,
    /// The length of its list.
    pub length: usize,
    /// Its iterations.
    pub iterations: u64,
    /// 0 where it did not run into its cap, and any other byte where it did.
    pub hit_cap: u8,
}

#[repr(C)]
pub struct AttemptAnswer {
    pub number: u8,
    pub attempt: Attempt,
}

#[repr(C)]
pub struct Selected {
    pub found: u8,
    pub fit: Fit,
}

#[repr(C)]
pub struct File {
    pub number: u8,
    pub items: usize,
    pub place: usize,
}

extern "C" {
    pub fn fog_exp(x: f64) -> f64;
    pub fn fog_ln(x: f64) -> f64;
    pub fn fog_expm1(x: f64) -> f64;
    pub fn fog_lgamma(x: f64) -> f64;

    pub fn fog_ln_dnbinom(x: f64, mean: f64, dispersion: f64) -> f64;
    pub fn fog_ln_dbetabinom(x: f64, trials: f64, alpha: f64, beta: f64) -> f64;
    pub fn fog_ln_single_copy(count: f64, mean: f64, dispersion: f64, present: u8, shelf: Shelf) -> f64;
    pub fn fog_mix_single_copy(lobe: f64, count: f64, present: u8, shelf: Shelf, table: *const f64, length: usize) -> f64;
    pub fn fog_discrete_nb_mode(mean: f64, dispersion: f64) -> u64;
    pub fn fog_shelf_trials(mean: f64) -> f64;
    pub fn fog_log_nb_mass(mean: f64, dispersion: f64, top: usize) -> Number;
    pub fn fog_single_copy_log_mass(
        mean: f64,
        dispersion: f64,
        present: u8,
        shelf: Shelf,
        table: *const f64,
        length: usize,
        top: usize,
    ) -> Number;
    pub fn fog_shelf_log_table(mean: f64, shelf: Shelf, top: usize, table: *mut f64, length: usize) -> Written;

    pub fn fog_parameter_count(error: u8) -> usize;
    pub fn fog_extra_parameters(genome: u8) -> usize;
    pub fn fog_list_length(error: u8, genome: u8) -> usize;

    pub fn fog_cost(
        bins: *const u32,
        bins_length: usize,
        scale: f64,
        window_end: usize,
        peak: usize,
        error: u8,
        genome: u8,
        theta: *const f64,
        theta_length: usize,
        table: *mut f64,
        table_length: usize,
    ) -> Number;
    pub fn fog_prepare_window(window_end: usize, out: *mut f64, length: usize) -> Written;
    pub fn fog_cost_prepared(
        bins: *const u32,
        bins_length: usize,
        scale: f64,
        window_end: usize,
        peak: usize,
        error: u8,
        genome: u8,
        theta: *const f64,
        theta_length: usize,
        ready: *const f64,
        ready_length: usize,
        table: *mut f64,
        table_length: usize,
    ) -> Number;
    pub fn fog_unpack(
        bins: *const u32,
        bins_length: usize,
        scale: f64,
        window_end: usize,
        peak: usize,
        error: u8,
        genome: u8,
        theta: *const f64,
        theta_length: usize,
        cost: f64,
        iterations: u64,
        table: *mut f64,
        table_length: usize,
    ) -> FitAnswer;

    pub fn fog_component_heights(fit: Fit, count: usize) -> Heights;
    pub fn fog_component_heights_to(fit: Fit, last: usize, out: *mut f64, length: usize) -> Written;
    pub fn fog_error_mode(fit: Fit) -> Count;
    pub fn fog_primary_mode(fit: Fit) -> u64;
    pub fn fog_repeat_mode(fit: Fit) -> u64;
    pub fn fog_mode_roundtrip_error(fit: Fit) -> f64;
    pub fn fog_component_total_ratio(fit: Fit) -> f64;

    pub fn fog_hole_cutoff(fit: Fit, budget: f64) -> Cutoff;
    pub fn fog_hole_cutoff_sure(fit: Fit, budget: f64) -> SureCutoff;
    pub fn fog_crossover(fit: Fit) -> Cutoff;
    pub fn fog_error_floor_cutoff(fit: Fit) -> Cutoff;

    pub fn fog_recover_bins(bins: *const u32, bins_length: usize, scale: f64, out: *mut u32, out_length: usize) -> Written;
    pub fn fog_empirical_shelf_share(bins: *const u32, bins_length: usize, scale: f64, valley: usize, peak: usize) -> Number;
    pub fn fog_start_tables_refusal(pareto: *const f64, pareto_length: usize, weibull: *const f64, weibull_length: usize) -> u8;
    pub fn fog_fit_starts(
        error: u8,
        genome: u8,
        seeds: *const f64,
        seeds_length: usize,
        hint: f64,
        share: f64,
        shapes: *const f64,
        shapes_length: usize,
        out: *mut f64,
        out_length: usize,
    ) -> Written;
    pub fn fog_fit_starts_lent(
        error: u8,
        genome: u8,
        pareto: *const f64,
        pareto_length: usize,
        weibull: *const f64,
        weibull_length: usize,
        seeds: *const f64,
        seeds_length: usize,
        hint: f64,
        share: f64,
        shapes: *const f64,
        shapes_length: usize,
        out: *mut f64,
        out_length: usize,
    ) -> Written;

    pub fn fog_begin_searches(
        bins: *const u32,
        bins_length: usize,
        scale: f64,
        window_end: usize,
        peak: usize,
        error: u8,
        genome: u8,
        starts: *const f64,
        starts_length: usize,
        simplexes: *mut f64,
        simplexes_length: usize,
        iterations: *mut u64,
        iterations_length: usize,
        stopped: *mut u8,
        stopped_length: usize,
        ready: *mut f64,
        ready_length: usize,
        table: *mut f64,
        table_length: usize,
    ) -> Written;
    pub fn fog_run_searches(
        bins: *const u32,
        bins_length: usize,
        scale: f64,
        window_end: usize,
        peak: usize,
        error: u8,
        genome: u8,
        runs: usize,
        limit: u64,
        simplexes: *mut f64,
        simplexes_length: usize,
        iterations: *mut u64,
        iterations_length: usize,
        stopped: *mut u8,
        stopped_length: usize,
        ready: *mut f64,
        ready_length: usize,
        table: *mut f64,
        table_length: usize,
    ) -> Written;
    pub fn fog_report_searches(
        error: u8,
        genome: u8,
        runs: usize,
        simplexes: *const f64,
        simplexes_length: usize,
        iterations: *const u64,
        iterations_length: usize,
        stopped: *const u8,
        stopped_length: usize,
        converged: *mut u8,
        converged_length: usize,
        costs: *mut f64,
        costs_length: usize,
        places: *mut usize,
        places_length: usize,
        lengths: *mut usize,
        lengths_length: usize,
        caps: *mut u8,
        caps_length: usize,
    ) -> Written;

    pub fn fog_validate_fit(fit: Fit, valley: usize, peak: usize, mass_limit: f64) -> Verdict;
    pub fn fog_attempt_from_numbers(
        bins: *const u32,
        bins_length: usize,
        scale: f64,
        window_end: usize,
        valley: usize,
        peak: usize,
        error: u8,
        genome: u8,
        mass_limit: f64,
        converged: *const u8,
        converged_length: usize,
        costs: *const f64,
        costs_length: usize,
        places: *const usize,
        places_length: usize,
        lengths: *const usize,
        lengths_length: usize,
        iterations: *const u64,
        iterations_length: usize,
        caps: *const u8,
        caps_length: usize,
        lists: *const f64,
        lists_length: usize,
        table: *mut f64,
        table_length: usize,
    ) -> AttemptAnswer;
    pub fn fog_attempt_from(
        bins: *const u32,
        bins_length: usize,
        setup: Setup,
        runs: *const Run,
        runs_length: usize,
        lists: *const f64,
        lists_length: usize,
        table: *mut f64,
        table_length: usize,
    ) -> AttemptAnswer;
    pub fn fog_is_valid(attempt: Attempt) -> u8;
    pub fn fog_select_fit(first: Attempt, second: Attempt, third: Attempt, fourth: Attempt) -> Selected;

    pub fn fog_read_histogram(file: *const u8, length: usize, bins: *mut u32, bins_length: usize) -> File;
    pub fn fog_write_histogram(bins: *const u32, bins_length: usize, file: *mut u8, length: usize) -> Written;
}
