//! The fits that are compared.

use crate::draw::Draw;
use crate::layer3::Problem;
use crate::{port, search};

/// How far a search is followed, and how many of its points are taken, evenly along its second half.
const FOLLOWED: usize = 400;
const POINTS: usize = 50;

pub struct Kind {
    pub name: &'static str,
    pub wanted: u64,
    pub draw: fn(&mut Draw, u8) -> Vec<port::Fit>,
}

pub const KINDS: [Kind; 3] = [
    Kind { name: "points of searches", wanted: 100_000, draw: searched },
    Kind { name: "drawn, dispersion 1.05 to 15", wanted: 100_000, draw: |d, genome| drawn(d, genome, [-3.0, 2.64]) },
    Kind { name: "drawn, dispersion 1 + 1e-6 to 1.05", wanted: 50_000, draw: |d, genome| drawn(d, genome, [-13.8, -3.0]) },
];

fn unpacked(p: &Problem, theta: Vec<f64>) -> port::Fit {
    let p = Problem { theta, ..p.clone() };
    let mut table = p.table.clone();
    let cost = port::cost(&p, &mut table).value;
    port::unpack(&p, cost, 1, &mut table).fit
}

/// Over a simulated spectrum with a peak of 4 to 127.
fn searched(d: &mut Draw, genome: u8) -> Vec<port::Fit> {
    let (error, peak) = (d.family(), d.octaves(2, 6) as u64);
    let start = search::problem(d, error, genome, 6 * peak);
    let (mut asked, mut table) = (start.clone(), start.table.clone());
    let path = search::path(&start.theta, FOLLOWED, |theta| {
        asked.theta.copy_from_slice(theta);
        port::cost(&asked, &mut table).value
    });
    let late: Vec<Vec<f64>> = path[path.len() / 2..].iter().filter(|(cost, _)| cost.is_finite()).map(|(_, theta)| theta.clone()).collect();
    let points = POINTS.min(late.len());
    (0..points).map(|i| unpacked(&start, late[i * late.len() / points].clone())).collect()
}

/// A start with noise, over a simulated spectrum with a peak of 2 to 511; the logarithm of what the dispersion has above 1 is drawn.
fn drawn(d: &mut Draw, genome: u8, log: [f64; 2]) -> Vec<port::Fit> {
    let (error, peak) = (d.family(), d.octaves(1, 8) as u64);
    let start = search::problem(d, error, genome, 6 * peak);
    let mut theta: Vec<f64> = start.theta.iter().map(|x| x + d.between(-1.0, 1.0)).collect();
    theta[3] = d.between(log[0], log[1]);
    vec![unpacked(&start, theta)]
}

/// The walk starts.
pub fn walks(fit: &port::Fit) -> bool {
    fit.genome_kmers > 0.0 && fit.genome_kmers.is_finite() && fit.mean >= 2.0 && fit.mean.is_finite() && fit.fit_window_end >= 2
}
