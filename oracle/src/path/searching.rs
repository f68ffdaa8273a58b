//! A sample's runs, from its starts or from starts moved a little, and what they come to, in lines of words.

use crate::draw::Draw;
use crate::sample::{cap, Sample, CONFIGURATIONS};
use crate::sides::{linked, unaltered, Outcome};
use crate::simplex::{self, Run};

/// How far a start is moved: each number by as much of itself, times a draw from -1 to 1.
const MOVE: f64 = 1e-13;

/// Which Rust searches.
#[derive(Clone, Copy, PartialEq)]
pub enum Build {
    Altered,
    Unaltered,
}

impl Build {
    fn starts(self, s: &Sample, families: (u8, u8)) -> Vec<Vec<f64>> {
        match self {
            Build::Altered => linked::starts(s, families),
            Build::Unaltered => unaltered::starts(s, families),
        }
    }

    fn run(self, s: &Sample, families: (u8, u8), start: &[f64]) -> Run {
        match self {
            Build::Altered => simplex::run(start, cap(families.1), linked::cost(s, families)),
            Build::Unaltered => simplex::run(start, cap(families.1), unaltered::cost(s, families)),
        }
    }

    pub fn outcome(self, s: &Sample, runs: &[Vec<Run>]) -> Outcome {
        match self {
            Build::Altered => linked::outcome(s, runs),
            Build::Unaltered => unaltered::outcome(s, runs),
        }
    }

    /// A run from each start of each configuration.
    pub fn runs(self, s: &Sample, way: u64) -> Vec<Vec<Run>> {
        let starts = moved(CONFIGURATIONS.map(|f| self.starts(s, f)), way);
        CONFIGURATIONS.iter().zip(&starts).map(|(&f, starts)| starts.iter().map(|start| self.run(s, f, start)).collect()).collect()
    }
}

/// The starts of each configuration, moved in one way; 0 leaves them as they are.
pub fn moved(starts: [Vec<Vec<f64>>; CONFIGURATIONS.len()], way: u64) -> [Vec<Vec<f64>>; CONFIGURATIONS.len()] {
    let mut d = Draw::named(&format!("the path's starts, move {way}"));
    let by = if way == 0 { 0.0 } else { MOVE };
    let mut from = |start: Vec<f64>| -> Vec<f64> { start.into_iter().map(|x| x * (1.0 + by * d.between(-1.0, 1.0))).collect() };
    starts.map(|starts| starts.into_iter().map(&mut from).collect())
}
