use fogatise::{
    fit_starts, select_fit, Configuration, ErrorModel, FitAttempt, GenomeModel, Refusal, ReportRoom, Scratch, Searches, Seeds, Spectrum,
    SureCutoff,
};

const WEIBULL: Configuration = Configuration { error: ErrorModel::FreeSingletonWeibull, genome: GenomeModel::NegativeBinomial };
const PARETO: Configuration = Configuration { error: ErrorModel::SingletonPareto, genome: GenomeModel::NegativeBinomial };
const WEIBULL_SHELF: Configuration = Configuration { genome: GenomeModel::ShelfNegativeBinomial, ..WEIBULL };
const PARETO_SHELF: Configuration = Configuration { genome: GenomeModel::ShelfNegativeBinomial, ..PARETO };

/// The starts of a configuration, a search from each, and what it came to.
fn attempt(spectrum: &Spectrum, configuration: Configuration, seeds: &Seeds) -> Result<FitAttempt, Refusal> {
    let mut room = [0.0; 256];
    let starts = fit_starts(configuration, seeds, &mut room)?;
    let (length, width) = (configuration.list_length(), configuration.list_length() + 1);
    let runs = starts.len() / length;

    // What is to be stored of runs that are to go on later, and what a call works in.
    let (mut simplexes, mut iterations, mut stopped) = (vec![0.0; runs * width * width], vec![0; runs], vec![0; runs]);
    let (mut ready, mut table) = (vec![0.0; 2 * (spectrum.window_end + 2)], vec![0.0; spectrum.window_end + 1]);
    let mut searches = Searches { simplexes: &mut simplexes, iterations: &mut iterations, stopped: &mut stopped };
    let mut scratch = Scratch { ready: &mut ready, table: &mut table };

    // A hundred turns at a time, until each run has stopped or has come to its cap.
    assert_eq!(spectrum.begin_searches(configuration, starts, &mut searches, &mut scratch)?, runs);
    for _ in 0..20 {
        spectrum.run_searches(configuration, runs, 100, &mut searches, &mut scratch)?;
    }

    let mut room = ReportRoom {
        converged: &mut vec![0; runs],
        costs: &mut vec![0.0; runs],
        places: &mut vec![0; runs],
        lengths: &mut vec![0; runs],
        caps: &mut vec![0; runs],
    };
    let columns = configuration.report_searches(runs, &searches, &mut room)?;
    assert!((0..runs).all(|i| searches.stopped[i] == 1 || columns.caps[i] == 1));
    let attempt = spectrum.attempt_from_numbers(configuration, 1.1, &columns, scratch.table)?;
    assert_eq!(attempt.total_iterations, searches.iterations.iter().sum());
    Ok(attempt)
}

fn main() -> Result<(), Refusal> {
    // How many distinct k-mers have the count 1, 2, 3 and so on: errors at 1, a valley at 5, a peak at 9.
    let bins = [
        21130, 1591, 624, 412, 392, 436, 494, 539, 557, 545, 508, 453, 389, 323, 262, 208, 163, 127, 98, 76, 60, 47, 37, 29, 23, 18, 15, 11,
    ];
    let spectrum = Spectrum { bins: &bins, scale: 1.0, window_end: bins.len(), valley: 5, peak: 9 };
    let seeds = Seeds { dispersions: &[1.5], hint: 3.0, share: spectrum.empirical_shelf_share()?, shapes: &[0.6, 5.0] };

    let attempts = [
        attempt(&spectrum, WEIBULL, &seeds)?,
        attempt(&spectrum, WEIBULL_SHELF, &seeds)?,
        attempt(&spectrum, PARETO, &seeds)?,
        attempt(&spectrum, PARETO_SHELF, &seeds)?,
    ];
    let fit = select_fit(&attempts).expect("one is valid");
    assert_eq!((fit.error_model, fit.shelf), (ErrorModel::SingletonPareto, None));
    assert_eq!((fit.mean * 10.0).round(), 106.0);

    // Three cutoffs: at most 100 of the genome's k-mers lost, single copies above errors, errors below the single-copy peak.
    assert_eq!(fit.hole_cutoff_sure(100.0)?, SureCutoff::Sure(Some(3)));
    assert_eq!(fit.crossover()?, Some(5));
    assert_eq!(fit.error_floor_cutoff()?, 4);
    Ok(())
}
