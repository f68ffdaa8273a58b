use fogatise::{fit_starts, select_fit, Configuration, ErrorModel, GenomeModel, Refusal, Run, RunColumns, Seeds, Spectrum, SureCutoff};

const WEIBULL: Configuration = Configuration { error: ErrorModel::FreeSingletonWeibull, genome: GenomeModel::NegativeBinomial };
const PARETO: Configuration = Configuration { error: ErrorModel::SingletonPareto, genome: GenomeModel::NegativeBinomial };
const WEIBULL_SHELF: Configuration = Configuration { genome: GenomeModel::ShelfNegativeBinomial, ..WEIBULL };
const PARETO_SHELF: Configuration = Configuration { genome: GenomeModel::ShelfNegativeBinomial, ..PARETO };

fn main() -> Result<(), Refusal> {
    // How many distinct k-mers have the count 1, 2, 3 and so on: errors at 1, a valley at 5, a peak at 9.
    let bins = [
        21130, 1591, 624, 412, 392, 436, 494, 539, 557, 545, 508, 453, 389, 323, 262, 208, 163, 127, 98, 76, 60, 47, 37, 29, 23, 18, 15, 11,
    ];
    let spectrum = Spectrum { bins: &bins, scale: 1.0, window_end: bins.len(), valley: 5, peak: 9 };

    // The starts of a search: two error starts for the dispersion 1.5, and two for the hint.
    let seeds = Seeds { dispersions: &[1.5], hint: 3.0, share: spectrum.empirical_shelf_share()?, shapes: &[0.6, 5.0] };
    let mut room = [0.0; 64];
    let starts = fit_starts(PARETO, &seeds, &mut room)?;
    assert_eq!(starts.chunks_exact(PARETO.list_length()).count(), 4);

    // What a search made of its starts, as it was stored. The third run of the Pareto family ran into its cap.
    let weibull = RunColumns {
        converged: &[1, 1],
        costs: &[41563.0236, 41569.8086],
        places: &[0, 8],
        lengths: &[8, 8],
        iterations: &[308, 336],
        caps: &[0, 0],
        lists: &[-1.49, -4.07, 0.3, -0.46, 0.06, 2.06, -0.81, 1.42, -1.47, -3.31, -0.32, -0.02, 0.14, 2.25, -0.04, -25.17],
    };
    let pareto = RunColumns {
        converged: &[1, 1, 0],
        costs: &[41565.7244, 41563.2379, 0.0],
        places: &[0, 7, 0],
        lengths: &[7, 7, 0],
        iterations: &[310, 561, 600],
        caps: &[0, 0, 1],
        lists: &[-1.74, -3.38, 0.27, -0.79, -0.18, 1.79, -26.62, -1.61, -4.04, 0.4, -0.67, -0.08, 1.86, 0.04],
    };
    let weibull_shelf = RunColumns {
        converged: &[1],
        costs: &[41563.1021],
        places: &[0],
        lengths: &[11],
        iterations: &[414],
        caps: &[0],
        lists: &[-1.49, -4.0, 0.32, -0.52, 0.09, 2.08, -0.94, 1.17, -3.33, -25.65, 24.05],
    };

    // With a shelf family the table needs the window end and one more. No search was made for the last configuration.
    let mut table = [0.0; 29];
    let attempts = [
        spectrum.attempt_from_numbers(WEIBULL, 1.1, &weibull, &mut [])?,
        spectrum.attempt_from_numbers(WEIBULL_SHELF, 1.1, &weibull_shelf, &mut table)?,
        spectrum.attempt_from_numbers(PARETO, 1.1, &pareto, &mut [])?,
        spectrum.attempt_from_numbers(PARETO_SHELF, 1.1, &RunColumns::default(), &mut table)?,
    ];
    assert_eq!(attempts.iter().filter(|attempt| attempt.is_valid()).count(), 3);

    // The same runs as structs.
    let runs: Vec<Run> = (0..pareto.costs.len())
        .map(|i| Run {
            converged: pareto.converged[i],
            cost: pareto.costs[i],
            place: pareto.places[i],
            length: pareto.lengths[i],
            iterations: pareto.iterations[i],
            hit_cap: pareto.caps[i],
        })
        .collect();
    assert_eq!(spectrum.attempt_from(PARETO, 1.1, &runs, pareto.lists, &mut [])?, attempts[2]);
    assert_eq!((attempts[2].total_iterations, attempts[2].capped_starts), (1471, 1));

    // The Pareto family has the lowest BIC.
    let fit = select_fit(&attempts).expect("three are valid");
    assert_eq!((fit.error_model, fit.shelf), (ErrorModel::SingletonPareto, None));
    assert_eq!((fit.mean * 10.0).round(), 104.0);

    // Three cutoffs: at most 100 of the genome's k-mers lost, single copies above errors, errors below the single-copy peak.
    assert_eq!(fit.hole_cutoff_sure(100.0)?, SureCutoff::Sure(Some(3)));
    assert_eq!(fit.crossover()?, Some(5));
    assert_eq!(fit.error_floor_cutoff()?, 4);
    Ok(())
}
