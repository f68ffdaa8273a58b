//! The port through its C interface: `crates/exports` and `crates/probe`.

use crate::layer3::Problem;
use crate::layer4::Search;

#[repr(C)]
#[derive(Clone, Copy)]
pub struct Shelf {
    pub share: f64,
    pub alpha: f64,
    pub beta: f64,
}

#[repr(C)]
pub struct Number {
    pub number: u8,
    pub value: f64,
}

#[repr(C)]
pub struct Written {
    pub number: u8,
    pub items: usize,
}

#[repr(C)]
pub struct Pair {
    pub first: f64,
    pub second: f64,
}

#[repr(C)]
pub struct Logs3 {
    pub first: f64,
    pub second: f64,
    pub third: f64,
}

#[repr(C)]
#[derive(Clone, Copy)]
pub struct Lobe {
    pub poisson: u8,
    pub mean: f64,
    pub rate: f64,
    pub size: f64,
    pub gamma: f64,
    pub start: f64,
    pub slope: f64,
}

#[repr(C)]
pub struct Count {
    pub number: u8,
    pub count: u64,
}

#[repr(C)]
pub struct Heights {
    pub number: u8,
    pub error: f64,
    pub single: f64,
    pub repeat: f64,
}

#[repr(C)]
#[derive(Clone, Copy)]
pub struct Errors {
    pub singleton_probability: f64,
    pub tail_exponent: f64,
    pub shape_present: u8,
    pub weibull_shape: f64,
}

#[repr(C)]
#[derive(Clone, Copy)]
pub struct Fit {
    pub error_model: u8,
    pub genome_model: u8,
    pub w_error: f64,
    pub w_single: f64,
    pub w_repeat: f64,
    pub mean: f64,
    pub dispersion: f64,
    pub target_mode: f64,
    pub error_params: Errors,
    pub shelf_present: u8,
    pub shelf: Shelf,
    pub repeat_ratio: f64,
    pub genome_kmers: f64,
    pub error_kmers: f64,
    pub repeat_kmers: f64,
    pub log_likelihood: f64,
    pub bic: f64,
    pub deviance: f64,
    pub fit_window_end: usize,
    pub best_iterations: u64,
    pub component_log_window_masses: [f64; 3],
    pub component_log_totals: [f64; 3],
    pub observed_total: f64,
    pub full_distinct_total: f64,
}

#[repr(C)]
pub struct FitAnswer {
    pub number: u8,
    pub fit: Fit,
}

#[repr(C)]
#[derive(Clone, Copy)]
pub struct Params {
    pub ln_error: f64,
    pub ln_single: f64,
    pub ln_repeat: f64,
    pub target_mode: f64,
    pub mean: f64,
    pub dispersion: f64,
    pub error_params: Errors,
    pub shelf_present: u8,
    pub shelf: Shelf,
    pub repeat_ratio: f64,
}

#[repr(C)]
pub struct ParamsAnswer {
    pub number: u8,
    pub params: Params,
}

#[repr(C)]
pub struct Verdict {
    pub number: u8,
    pub reason: u8,
}

#[repr(C)]
#[derive(Clone, Copy)]
pub struct Attempt {
    pub error_model: u8,
    pub genome_model: u8,
    pub has_candidate: u8,
    pub candidate: Fit,
    pub rejection_present: u8,
    pub rejection: u8,
    pub total_iterations: u64,
    pub capped_starts: u32,
}

#[repr(C)]
pub struct Selected {
    pub found: u8,
    pub fit: Fit,
}

/// Declares a C function `fog_NAME` and a safe NAME that calls it. None of these reads or writes memory.
macro_rules! calls {
    ($($name:ident = $symbol:ident($($argument:ident: $type:ty),*) -> $answer:ty;)*) => {
        extern "C" {
            $(fn $symbol($($argument: $type),*) -> $answer;)*
        }
        $(pub fn $name($($argument: $type),*) -> $answer {
            unsafe { $symbol($($argument),*) }
        })*
    };
}

calls! {
    exp = fog_exp(x: f64) -> f64;
    ln = fog_ln(x: f64) -> f64;
    expm1 = fog_expm1(x: f64) -> f64;
    lgamma = fog_lgamma(x: f64) -> f64;
    round = fog_round(x: f64) -> f64;
    floor = fog_floor(x: f64) -> f64;
    max = fog_max(a: f64, b: f64) -> f64;
    min = fog_min(a: f64, b: f64) -> f64;
    is_finite = fog_is_finite(x: f64) -> bool;
    to_u64 = fog_to_u64(x: f64) -> u64;
    to_u32 = fog_to_u32(x: f64) -> u32;
    from_u64 = fog_from_u64(n: u64) -> f64;
    at_least = fog_at_least(v: f64, bound: f64) -> f64;
    at_most = fog_at_most(v: f64, bound: f64) -> f64;
    tail = fog_tail(r: f64) -> f64;
    power_at = fog_power_at(i: u64) -> Pair;
    piece_at = fog_piece_at(i: u64) -> Pair;
    log_at = fog_log_at(i: u64) -> Pair;
    pareto_start = fog_pareto_start(i: usize) -> f64;
    weibull_start = fog_weibull_start(i: usize) -> f64;
    lse2 = fog_lse2(a: f64, b: f64) -> f64;
    lse3 = fog_lse3(a: f64, b: f64, c: f64) -> f64;
    ln_softmax3 = fog_ln_softmax3(a: f64, b: f64, c: f64) -> Logs3;
    ln_sub_exp = fog_ln_sub_exp(high: f64, low: f64) -> f64;
    sigmoid = fog_sigmoid(value: f64) -> f64;
    ln_dpois = fog_ln_dpois(x: f64, lambda: f64) -> f64;
    ln_dnbinom = fog_ln_dnbinom(x: f64, mean: f64, dispersion: f64) -> f64;
    lobe_of = fog_lobe_of(mean: f64, dispersion: f64) -> Lobe;
    density = fog_density(lobe: Lobe, x: f64) -> f64;
    discrete_nb_mode = fog_discrete_nb_mode(mean: f64, dispersion: f64) -> u64;
    log_nb_mass = fog_log_nb_mass(mean: f64, dispersion: f64, top: usize) -> Number;
    shelf_trials = fog_shelf_trials(mean: f64) -> f64;
    ln_dbetabinom = fog_ln_dbetabinom(x: f64, trials: f64, alpha: f64, beta: f64) -> f64;
    ln_single_copy = fog_ln_single_copy(count: f64, mean: f64, dispersion: f64, present: u8, shelf: Shelf) -> f64;
    mix_shelf = fog_mix_shelf(lobe: f64, shelf: Shelf, at: f64) -> f64;
    shelf_logs = fog_shelf_logs(present: u8, shelf: Shelf) -> Pair;
    parameter_count = fog_parameter_count(error: u8) -> usize;
    extra_parameters = fog_extra_parameters(genome: u8) -> usize;
    list_length = fog_list_length(error: u8, genome: u8) -> usize;
    log_probability = fog_log_probability(errors: Errors, count: f64) -> f64;
    log_window_mass = fog_log_window_mass(errors: Errors, top: usize) -> Number;
    retained = fog_retained(shelf: Shelf) -> f64;
    concentration = fog_concentration(shelf: Shelf) -> f64;
    shelf_concentration_bounds = fog_shelf_concentration_bounds(retained: f64) -> Pair;
    shelf_is_valid = fog_shelf_is_valid(shelf: Shelf) -> bool;
    used_scale = fog_used_scale(scale: f64) -> f64;
    rounded_quotient = fog_rounded_quotient(n: u32, divisor: f64) -> u32;
    component_total_ratio = fog_component_total_ratio(fit: Fit) -> f64;
    mode_roundtrip_error = fog_mode_roundtrip_error(fit: Fit) -> f64;
    primary_mode = fog_primary_mode(fit: Fit) -> u64;
    repeat_mode = fog_repeat_mode(fit: Fit) -> u64;
    error_mode = fog_error_mode(fit: Fit) -> Count;
    component_heights = fog_component_heights(fit: Fit, count: usize) -> Heights;
    validate_fit = fog_validate_fit(fit: Fit, valley: usize, peak: usize, mass_limit: f64) -> Verdict;
    is_valid = fog_is_valid(attempt: Attempt) -> u8;
    select_fit = fog_select_fit(first: Attempt, second: Attempt, third: Attempt, fourth: Attempt) -> Selected;
}

extern "C" {
    fn fog_mix_single_copy(lobe: f64, count: f64, present: u8, shelf: Shelf, table: *const f64, length: usize) -> f64;
    fn fog_mix_entry(lobe: f64, count: f64, present: u8, shelf: Shelf, rest: f64, share: f64, table: *const f64, length: usize) -> f64;
    fn fog_single_copy_log_mass(
        mean: f64,
        dispersion: f64,
        present: u8,
        shelf: Shelf,
        table: *const f64,
        length: usize,
        top: usize,
    ) -> Number;
    fn fog_shelf_log_table(mean: f64, shelf: Shelf, top: usize, table: *mut f64, length: usize) -> Written;
}

pub fn mix_single_copy(lobe: f64, count: f64, present: u8, shelf: Shelf, table: &[f64]) -> f64 {
    unsafe { fog_mix_single_copy(lobe, count, present, shelf, table.as_ptr(), table.len()) }
}

/// The logs of the rest and of the share are given apart from the shelf.
pub fn mix_entry(lobe: f64, count: f64, present: u8, shelf: Shelf, logs: Pair, table: &[f64]) -> f64 {
    unsafe { fog_mix_entry(lobe, count, present, shelf, logs.first, logs.second, table.as_ptr(), table.len()) }
}

pub fn single_copy_log_mass(mean: f64, dispersion: f64, present: u8, shelf: Shelf, table: &[f64], top: usize) -> Number {
    unsafe { fog_single_copy_log_mass(mean, dispersion, present, shelf, table.as_ptr(), table.len(), top) }
}

pub fn shelf_log_table(mean: f64, shelf: Shelf, top: usize, table: &mut [f64]) -> Written {
    unsafe { fog_shelf_log_table(mean, shelf, top, table.as_mut_ptr(), table.len()) }
}

extern "C" {
    fn fog_params_from(error: u8, genome: u8, peak: usize, theta: *const f64, listed: usize) -> ParamsAnswer;
    fn fog_cost(
        bins: *const u32,
        length: usize,
        scale: f64,
        window_end: usize,
        peak: usize,
        error: u8,
        genome: u8,
        theta: *const f64,
        listed: usize,
        table: *mut f64,
        room: usize,
    ) -> Number;
    fn fog_unpack(
        bins: *const u32,
        length: usize,
        scale: f64,
        window_end: usize,
        peak: usize,
        error: u8,
        genome: u8,
        theta: *const f64,
        listed: usize,
        cost: f64,
        iterations: u64,
        table: *mut f64,
        room: usize,
    ) -> FitAnswer;
}

pub fn params_from(error: u8, genome: u8, peak: usize, theta: &[f64]) -> ParamsAnswer {
    unsafe { fog_params_from(error, genome, peak, theta.as_ptr(), theta.len()) }
}

/// The table is lent apart from the problem.
pub fn cost(p: &Problem, table: &mut [f64]) -> Number {
    let (bins, length, theta, listed) = (p.bins.as_ptr(), p.bins.len(), p.theta.as_ptr(), p.theta.len());
    let (end, peak, room) = (p.window_end as usize, p.peak as usize, table.len());
    unsafe { fog_cost(bins, length, p.scale, end, peak, p.error, p.genome, theta, listed, table.as_mut_ptr(), room) }
}

pub fn unpack(p: &Problem, cost: f64, iterations: u64, table: &mut [f64]) -> FitAnswer {
    let (bins, length, theta, listed) = (p.bins.as_ptr(), p.bins.len(), p.theta.as_ptr(), p.theta.len());
    let (end, peak, room) = (p.window_end as usize, p.peak as usize, table.len());
    unsafe { fog_unpack(bins, length, p.scale, end, peak, p.error, p.genome, theta, listed, cost, iterations, table.as_mut_ptr(), room) }
}

extern "C" {
    fn fog_recover_bins(bins: *const u32, length: usize, scale: f64, out: *mut u32, room: usize) -> Written;
    fn fog_empirical_shelf_share(bins: *const u32, length: usize, scale: f64, valley: usize, peak: usize) -> Number;
    fn fog_start_tables_refusal(pareto: *const f64, pareto_length: usize, weibull: *const f64, weibull_length: usize) -> u8;
    fn fog_fit_starts(
        error: u8,
        genome: u8,
        seeds: *const f64,
        seeds_length: usize,
        hint: f64,
        share: f64,
        shapes: *const f64,
        shapes_length: usize,
        out: *mut f64,
        room: usize,
    ) -> Written;
    fn fog_fit_starts_lent(
        error: u8,
        genome: u8,
        pareto: *const f64,
        pareto_length: usize,
        weibull: *const f64,
        weibull_length: usize,
        seeds: *const f64,
        seeds_length: usize,
        hint: f64,
        share: f64,
        shapes: *const f64,
        shapes_length: usize,
        out: *mut f64,
        room: usize,
    ) -> Written;
}

pub fn recover_bins(bins: &[u32], scale: f64, out: &mut [u32]) -> Written {
    unsafe { fog_recover_bins(bins.as_ptr(), bins.len(), scale, out.as_mut_ptr(), out.len()) }
}

pub fn empirical_shelf_share(bins: &[u32], scale: f64, valley: usize, peak: usize) -> Number {
    unsafe { fog_empirical_shelf_share(bins.as_ptr(), bins.len(), scale, valley, peak) }
}

pub fn start_tables_refusal(pareto: &[f64], weibull: &[f64]) -> u8 {
    unsafe { fog_start_tables_refusal(pareto.as_ptr(), pareto.len(), weibull.as_ptr(), weibull.len()) }
}

/// The out buffer is lent apart from the search. Without lent tables the fixed ones are taken.
pub fn fit_starts(s: &Search, out: &mut [f64]) -> Written {
    let (seeds, shapes, written, room) = (&s.seeds, &s.shapes, out.as_mut_ptr(), out.len());
    let (seeds, seeded, shapes, shaped) = (seeds.as_ptr(), seeds.len(), shapes.as_ptr(), shapes.len());
    let Some([pareto, weibull]) = &s.lent else {
        return unsafe { fog_fit_starts(s.error, s.genome, seeds, seeded, s.hint, s.share, shapes, shaped, written, room) };
    };
    let (pareto, rows, weibull, lines) = (pareto.as_ptr(), pareto.len(), weibull.as_ptr(), weibull.len());
    let (hint, share) = (s.hint, s.share);
    unsafe {
        fog_fit_starts_lent(
            s.error, s.genome, pareto, rows, weibull, lines, seeds, seeded, hint, share, shapes, shaped, written, room,
        )
    }
}
