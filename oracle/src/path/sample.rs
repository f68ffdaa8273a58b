//! A sample on its way: its bins, and what a person reads off them.

use crate::file;
use crate::layer3::Problem;
use crate::layer4::{self, RunTable, Search};
use crate::simplex::Run;

/// The Rust's, in its order: Pareto, Weibull, and both with a shelf.
pub const CONFIGURATIONS: [(u8, u8); 4] = [(1, 0), (0, 0), (1, 1), (0, 1)];
pub const SEEDS: [f64; 3] = [2.0, 8.0, 15.0];
pub const HINT: f64 = 2.0;
pub const SHAPES: [(f64, f64); 2] = [(0.5, 3.0), (0.75, 4.0)];
pub const MASS_LIMIT: f64 = 1.1;

/// 1e-4 and 1e-3 of the genome's 200,000 k-mers.
pub const BUDGETS: [f64; 2] = [20.0, 200.0];

#[derive(Clone)]
pub struct Sample {
    pub bins: Vec<u32>,
    pub valley: usize,
    pub peak: usize,
    pub window_end: usize,
}

pub fn family((error, genome): (u8, u8)) -> &'static str {
    match (error, genome) {
        (1, 0) => "Pareto",
        (0, 0) => "Weibull",
        (1, _) => "Pareto with shelf",
        _ => "Weibull with shelf",
    }
}

pub fn cap(genome: u8) -> u64 {
    if genome == 0 {
        1_000
    } else {
        2_000
    }
}

impl Sample {
    /// The valley is the first count from 2 on with fewer k-mers than the next, and the peak the first of the highest from there on.
    pub fn of(bins: Vec<u32>) -> Sample {
        let valley = (2..bins.len()).find(|&count| bins[count - 1] < bins[count]).expect("the bins rise behind the errors");
        let highest = *bins[valley - 1..].iter().max().expect("there are bins behind the valley");
        let peak = valley + bins[valley - 1..].iter().position(|&n| n == highest).expect("one of them is the highest");
        let window_end = (6 * peak).min(bins.len() - 1);
        Sample { bins, valley, peak, window_end }
    }

    /// By document 01's layout.
    pub fn read(path: &str) -> Sample {
        let (bytes, mut bins) = (std::fs::read(path).expect("the sample can be read"), vec![]);
        file::read(&bytes, &mut bins).expect("the sample is a histogram file");
        Sample::of(bins)
    }

    /// A search for starts, with just the room that they need.
    pub fn search(&self, (error, genome): (u8, u8), share: f64) -> Search {
        let shapes = SHAPES.iter().flat_map(|&(retained, concentration)| [retained, concentration]).collect();
        let mut search = Search { hint: HINT, share, error, genome, lent: None, seeds: SEEDS.to_vec(), shapes, out: vec![] };
        search.out = vec![0.0; search.needed()];
        search
    }

    pub fn run_table(&self, families: (u8, u8), runs: &[Run]) -> RunTable {
        let (problem, valley, mass_limit) = (self.problem(families), self.valley as u64, MASS_LIMIT);
        let (converged, caps, costs) = (vec![], vec![], vec![]);
        let (places, lengths, iterations) = (vec![], vec![], vec![]);
        let mut table = RunTable { problem, valley, mass_limit, converged, costs, places, lengths, iterations, caps };
        for run in runs {
            let (converged, cost, iterations, capped) = (run.converged, run.cost, run.iterations, run.capped);
            table.push(layer4::Run { converged, cost, place: 0, length: 0, iterations, capped }, &run.list);
        }
        table
    }

    pub fn problem(&self, (error, genome): (u8, u8)) -> Problem {
        let (window_end, peak) = (self.window_end as u64, self.peak as u64);
        Problem {
            scale: 1.0,
            window_end,
            peak,
            error,
            genome,
            theta: vec![],
            bins: self.bins.clone(),
            table: vec![0.0; self.window_end + 1],
        }
    }
}
