//! What both sides get: simulated spectra, the points that a search visits over each, and a run table made of its last points.

use crate::argmin::CostFunction;
use crate::draw::Draw;
use crate::layer3::rust::{linked, unaltered};
use crate::layer3::Problem;
use crate::layer4::{Run, RunTable};
use crate::search::Point;
use crate::unaltered::models::{MixtureFit, SpectrumFit};
use crate::words::{bits, fit_words};
use crate::{port, search};

pub const FAMILIES: [(u8, u8, &str); 4] = [(1, 0, "Pareto"), (0, 0, "Weibull"), (1, 1, "Pareto + shelf"), (0, 1, "Weibull + shelf")];

/// How far a search is followed, and how many of its points are taken, evenly along it.
const FOLLOWED: usize = 600;
const POINTS: usize = 16;

/// The runs of a table, and the mass limit of spectrum_fitter.rs.
pub const TABLED: usize = 24;
pub const LIMIT: f64 = 1.1;

/// A list over a spectrum, its fit, and both as the Rust holds them: the mixture is made once for a spectrum, as its search does.
pub struct Input {
    pub problem: Problem,
    pub cost: f64,
    pub mixture: MixtureFit,
    pub fit: port::Fit,
    pub rust_fit: SpectrumFit,
    /// k-mers that a cutoff may remove: 2^-14 to 2^-4 of the genome's.
    pub budget: f64,
}

/// The inputs of one window end and one configuration.
pub struct Cell {
    pub window_end: u64,
    pub family: &'static str,
    pub inputs: Vec<Input>,
    /// One for each spectrum.
    pub tables: Vec<RunTable>,
}

/// Fewer spectra of windows that take long.
fn spectra(window_end: u64) -> usize {
    if window_end > 2000 {
        2
    } else {
        8
    }
}

/// The port's answers are those of the Rust with the port's routines, to the bit.
fn input(d: &mut Draw, problem: Problem, mixture: &MixtureFit) -> Option<Input> {
    let mut table = problem.table.clone();
    let cost = port::cost(&problem, &mut table).value;
    let judge = linked::mixture(&problem);
    assert_eq!(bits(cost), bits(judge.cost(&problem.theta).expect("a cost is never an error")), "the costs differ");
    if !cost.is_finite() || !mixture.cost(&problem.theta).expect("a cost is never an error").is_finite() {
        return None;
    }
    let fit = port::unpack(&problem, cost, 1, &mut table).fit;
    let words = fit_words(&fit);
    assert_eq!(words, linked::fit_words(&judge.unpack(&problem.theta, cost, 1)), "the fits differ");
    let budget = (d.octaves(-14, -5) * fit.genome_kmers).round();
    Some(Input { problem, cost, mixture: mixture.clone(), fit, rust_fit: unaltered::fit(&words), budget })
}

/// A run table whose lists are points of a search, evenly along its second half, with their costs.
fn tabled(d: &mut Draw, problem: Problem, path: &[Point]) -> RunTable {
    let valley = search::valley(&problem);
    let mut t = RunTable { valley, mass_limit: LIMIT, ..RunTable::over(d, problem) };
    let half = &path[path.len() / 2..];
    for i in 0..TABLED {
        let (cost, list) = &half[i * half.len() / TABLED];
        t.push(Run { converged: true, cost: *cost, place: 0, length: 0, iterations: i as u64, capped: false }, list);
    }
    t
}

/// The points of one search, over one spectrum, and its run table.
fn searched(d: &mut Draw, error: u8, genome: u8, window_end: u64) -> (Vec<Input>, RunTable) {
    let start = search::problem(d, error, genome, window_end);
    let mixture = unaltered::mixture(&start);
    let (mut asked, mut table) = (start.clone(), start.table.clone());
    let path = search::path(&start.theta, FOLLOWED, |theta| {
        asked.theta.copy_from_slice(theta);
        port::cost(&asked, &mut table).value
    });
    let finite: Vec<Point> = path.into_iter().filter(|(cost, _)| cost.is_finite()).collect();
    let chosen = (0..POINTS).map(|i| finite[i * finite.len() / POINTS].1.clone());
    let inputs = chosen.filter_map(|theta| input(d, Problem { theta, ..start.clone() }, &mixture)).collect();
    (inputs, tabled(&mut Draw::named("a run table"), start, &finite))
}

pub fn cell(window_end: u64, (error, genome, family): (u8, u8, &'static str), divisor: usize) -> Cell {
    let mut d = Draw::named(&format!("speed, window end {window_end}, {family}"));
    let spectra = (spectra(window_end) / divisor).max(1);
    let (inputs, tables): (Vec<_>, Vec<_>) = (0..spectra).map(|_| searched(&mut d, error, genome, window_end)).unzip();
    let inputs: Vec<Input> = inputs.into_iter().flatten().collect();
    assert!(2 * inputs.len() > spectra * POINTS, "too few of the points have a finite cost");
    Cell { window_end, family, inputs, tables }
}
