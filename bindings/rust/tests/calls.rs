//! The calls that the oracle's rows do not have: each against another call, or against what the header says.

use fogatise::*;

const SHELVED: Configuration = Configuration { error: ErrorModel::FreeSingletonWeibull, genome: GenomeModel::ShelfNegativeBinomial };
const PLAIN: Configuration = Configuration { error: ErrorModel::SingletonPareto, genome: GenomeModel::NegativeBinomial };

const SEEDS: Seeds = Seeds { dispersions: &[1.5, 3.0], hint: 2.0, share: 0.1, shapes: &[0.6, 5.0] };

/// The bins of the sample, whose valley is 6 and whose peak is 21.
fn sample() -> Vec<u32> {
    let place = concat!(env!("CARGO_MANIFEST_DIR"), "/../../samples/simulated.histogram");
    let file = std::fs::read(place).unwrap_or_else(|why| panic!("{place}: {why}"));
    let mut bins = [0; MOST_FILE_BINS];
    read_histogram(&file, &mut bins).expect("the sample is whole").to_vec()
}

fn spectrum(bins: &[u32]) -> Spectrum<'_> {
    Spectrum { bins, scale: 1.0, window_end: bins.len(), valley: 6, peak: 21 }
}

fn starts(configuration: Configuration) -> Vec<f64> {
    let mut room = [0.0; 99];
    fit_starts(configuration, &SEEDS, &mut room).expect("9 starts of 11 numbers").to_vec()
}

// ---- the prepared cost

#[test]
fn a_prepared_cost_is_the_cost() {
    let bins = sample();
    let mut room = vec![0.0; 2 * (bins.len() + 2)];
    let prepared = prepare_window(bins.len(), &mut room).expect("exact room");
    // A smaller window may use what was prepared for a larger one.
    for window_end in [bins.len(), 40] {
        let s = Spectrum { window_end, ..spectrum(&bins) };
        for configuration in [SHELVED, PLAIN] {
            for theta in starts(configuration).chunks_exact(configuration.list_length()) {
                let (mut one, mut other) = ([0.0; 200], [0.0; 200]);
                let cost = s.cost(configuration, theta, &mut one).expect("a cost");
                let faster = s.cost_prepared(configuration, theta, prepared, &mut other).expect("a cost");
                assert!(cost.is_finite() && cost.to_bits() == faster.to_bits());
                assert_eq!(one, other);
            }
        }
    }
}

#[test]
fn a_larger_window_than_prepared_is_refused() {
    let bins = sample();
    let mut room = [0.0; 84];
    let prepared = prepare_window(40, &mut room).expect("exact room");
    let s = Spectrum { window_end: 41, ..spectrum(&bins) };
    assert_eq!(s.cost_prepared(PLAIN, &starts(PLAIN)[..7], prepared, &mut []), Err(Refusal::TooShort));
    assert_eq!(prepare_window(41, &mut room).map(|_| ()), Err(Refusal::TooShort));
    assert_eq!(prepare_window(0, &mut room).map(|_| ()), Err(Refusal::NoWindow));
    assert_eq!(prepare_window(65_536, &mut room).map(|_| ()), Err(Refusal::TooLarge));
}

// ---- the heights

#[test]
fn heights_come_one_by_one_and_together() {
    let bins = sample();
    let mut table = [0.0; 200];
    let fit = spectrum(&bins).unpack(SHELVED, &starts(SHELVED)[..11], 1.0, 7, &mut table).expect("a fit");
    assert_eq!((fit.best_iterations, fit.log_likelihood, fit.fit_window_end), (7, -1.0, 148));
    let mut room = [-1.0; 31];
    let rows = fit.component_heights_to(10, &mut room).expect("30 numbers");
    for (i, row) in rows.chunks_exact(3).enumerate() {
        let h = fit.component_heights(i + 1).expect("three heights");
        assert!(h.single > 0.0);
        assert_eq!([h.error, h.single, h.repeat], *row);
    }
    assert_eq!((rows.len(), room[30]), (30, -1.0));
    assert_eq!(fit.component_heights_to(11, &mut room), Err(Refusal::TooShort));
}

// ---- attempts

/// Every start as a run, at its own cost; the last did not converge.
#[test]
fn an_attempt_is_the_least_of_its_valid_runs() {
    let bins = sample();
    let s = spectrum(&bins);
    let lists = starts(PLAIN);
    let runs = lists.len() / 7;
    let costs: Vec<f64> = lists.chunks_exact(7).map(|theta| s.cost(PLAIN, theta, &mut []).expect("a cost")).collect();
    let (mut converged, mut caps) = (vec![1; runs], vec![0; runs]);
    converged[runs - 1] = 0;
    caps[..2].fill(1);
    let columns = RunColumns {
        converged: &converged,
        costs: &costs,
        places: &(0..runs).map(|run| 7 * run).collect::<Vec<_>>(),
        lengths: &vec![7; runs],
        iterations: &(1..=runs as u64).collect::<Vec<_>>(),
        caps: &caps,
        lists: &lists,
    };
    let attempt = s.attempt_from_numbers(PLAIN, 1e9, &columns, &mut []).expect("an attempt");

    let fits = (0..runs - 1).map(|i| s.unpack(PLAIN, &lists[7 * i..7 * i + 7], costs[i], i as u64 + 1, &mut []).expect("a fit"));
    let (mut valid, rejected): (Vec<_>, Vec<_>) = fits.partition(|fit| fit.validate(6, 21, 1e9) == Ok(None));
    valid.sort_by(|a, b| b.log_likelihood.total_cmp(&a.log_likelihood));
    assert_eq!((runs, valid.is_empty(), rejected.is_empty()), (6, false, true));
    assert_eq!((attempt.candidate, attempt.rejection), (Some(valid[0]), None));
    assert_eq!((attempt.error_model, attempt.genome_model), (PLAIN.error, PLAIN.genome));
    assert_eq!((attempt.total_iterations, attempt.capped_starts), (21, 2));

    // Every byte but 0 is a yes.
    let (bytes, hits): (Vec<u8>, Vec<u8>) = (converged.iter().map(|b| b * 2).collect(), caps.iter().map(|b| b * 255).collect());
    let same = RunColumns { converged: &bytes, caps: &hits, ..columns };
    assert_eq!(s.attempt_from_numbers(PLAIN, 1e9, &same, &mut []), Ok(attempt));

    // A peak that no lobe reaches: every run is rejected.
    let far = Spectrum { valley: 1000, peak: 2000, ..s }.attempt_from_numbers(PLAIN, 1e9, &columns, &mut []).expect("an attempt");
    assert!(far.candidate.is_some() && far.rejection.is_some() && !far.is_valid());

    let wrong = RunColumns { lengths: &vec![8; runs], ..columns };
    assert_eq!(s.attempt_from_numbers(PLAIN, 1e9, &wrong, &mut []), Err(Refusal::WrongLength));
    assert_eq!(s.attempt_from_numbers(PLAIN, 0.5, &columns, &mut []), Err(Refusal::WrongLimitOrCost));
}

#[test]
fn no_run_is_no_candidate() {
    let bins = sample();
    let none = spectrum(&bins).attempt_from_numbers(PLAIN, 2.0, &RunColumns::default(), &mut []).expect("an attempt");
    assert_eq!((none.candidate, none.rejection), (None, Some(FitRejection::OptimisationFailed)));
    assert_eq!((none.total_iterations, none.capped_starts, none.is_valid()), (0, 0, false));
    assert_eq!(select_fit(&[none; 4]), None);
}

// ---- lent memory

/// Slices that are only read may be one: Rust allows it, and the answer is that of copies.
#[test]
fn slices_that_are_read_may_overlap() {
    let shared = [1.5, 0.8, 0.5, 2.5, 0.9, 0.7];
    let apart = [shared; 3];
    let (mut one, mut other) = ([0.0; 500], [0.0; 500]);
    let tables = StartTables { pareto: &shared, weibull: &shared };
    let starts = fit_starts_lent(SHELVED, &tables, &Seeds { dispersions: &shared, ..SEEDS }, &mut one).expect("14 starts");
    assert_eq!(starts.len(), 14 * 11);
    let tables = StartTables { pareto: &apart[0], weibull: &apart[1] };
    let copied = fit_starts_lent(SHELVED, &tables, &Seeds { dispersions: &apart[2], ..SEEDS }, &mut other).expect("14 starts");
    assert_eq!(starts, copied);
}

#[test]
fn a_refusal_leaves_lent_memory() {
    let bins = sample();
    let s = spectrum(&bins);
    let mut table = [-1.0; 148];
    assert_eq!(s.cost(SHELVED, &starts(SHELVED)[..11], &mut table), Err(Refusal::TooShort));
    assert_eq!(Spectrum { bins: &[], ..s }.cost(SHELVED, &[], &mut table), Err(Refusal::TooSmall));
    assert_eq!(Spectrum { bins: &[0; 9], ..s }.cost(SHELVED, &[], &mut table), Err(Refusal::AllBinsZero));
    assert_eq!(table, [-1.0; 148]);
}

// ---- the histogram file

#[test]
fn a_file_is_read_and_written() {
    let file = [0x01, 0x03, 0xac, 0x02, 0x00, 0x05];
    let mut bins = [9; 4];
    assert_eq!(read_histogram(&file[..5], &mut bins), Err(Refusal::BrokenFile { place: 5 }));
    assert_eq!(read_histogram(&file, &mut bins[..2]), Err(Refusal::TooShort));
    assert_eq!(bins, [9; 4]);
    assert_eq!(read_histogram(&file, &mut bins).expect("a whole file"), [300, 0, 5]);
    let mut bytes = [0; 7];
    assert_eq!(write_histogram(&bins[..3], &mut bytes).expect("6 bytes"), file);
}

#[test]
fn the_longest_file_fits() {
    let (bins, mut bytes) = ([u32::MAX; MOST_FILE_BINS], [0; MOST_FILE_BYTES]);
    let file = write_histogram(&bins, &mut bytes).expect("the longest file");
    assert_eq!(file.len(), MOST_FILE_BYTES);
    let mut read = [0; MOST_FILE_BINS];
    assert_eq!(read_histogram(file, &mut read).expect("a whole file"), bins);
    assert_eq!(write_histogram(&[0; MOST_FILE_BINS + 1], &mut bytes), Err(Refusal::TooLarge));
}
