//! The points that Nelder and Mead's search visits, from the starts of spectrum_fitter.rs.

use crate::draw::Draw;
use crate::layer3::rust::linked::mixture;
use crate::layer3::Problem;
use crate::linked::spectrum_fitter::{empirical_shelf_share, fit_starts};
use crate::spectra;

pub const SEEDS: [f64; 3] = [2.0, 8.0, 15.0];
pub const SHAPES: [(f64, f64); 2] = [(0.5, 3.0), (0.75, 4.0)];

/// How far each point of the first simplex is from the start, and the costs' spread at which the search ends.
const STEP: f64 = 0.5;
const SPREAD: f64 = 1e-4;

/// The valley is taken at a third of the peak.
pub fn valley(p: &Problem) -> u64 {
    (p.peak / 3).max(2)
}

/// The starts over a problem's spectrum.
pub fn starts(d: &mut Draw, p: &Problem) -> Vec<Vec<f64>> {
    let (mixture, hint) = (mixture(p), d.between(1.1, 6.0));
    let share = empirical_shelf_share(&p.bins, valley(p) as usize, p.peak as usize);
    fit_starts(&mixture, hint, share, &SEEDS, &SHAPES, None)
}

pub fn start(d: &mut Draw, p: &Problem) -> Vec<f64> {
    let starts = starts(d, p);
    starts[d.below(starts.len() as u64) as usize].clone()
}

/// A simulated spectrum with its peak at a sixth of the window, and a start over it.
pub fn problem(d: &mut Draw, error: u8, genome: u8, window_end: u64) -> Problem {
    let peak = window_end / 6;
    let bins = spectra::simulated(d, peak, window_end + 1);
    let table = vec![0.0; window_end as usize + 1];
    let mut p = Problem { scale: 1.0, window_end, peak, error, genome, theta: vec![], bins, table };
    p.theta = start(d, &p);
    p
}

pub type Point = (f64, Vec<f64>);

struct Simplex<F> {
    cost: F,
    points: Vec<Point>,
    visited: Vec<Point>,
}

impl<F: FnMut(&[f64]) -> f64> Simplex<F> {
    /// The start, and it with each coordinate a step on.
    fn around(start: &[f64], cost: F) -> Simplex<F> {
        let mut simplex = Simplex { cost, points: vec![], visited: vec![] };
        for i in 0..=start.len() {
            let mut point = start.to_vec();
            if i > 0 {
                point[i - 1] += STEP;
            }
            let point = simplex.visit(point);
            simplex.points.push(point);
        }
        simplex
    }

    fn visit(&mut self, point: Vec<f64>) -> Point {
        let visited = ((self.cost)(&point), point);
        self.visited.push(visited.clone());
        visited
    }

    /// On the line from the centre through the worst point: 1 is the point itself.
    fn along(&mut self, centre: &[f64], by: f64) -> Point {
        let worst = &self.points[self.points.len() - 1].1;
        let point = centre.iter().zip(worst).map(|(c, x)| c + by * (x - c)).collect();
        self.visit(point)
    }

    fn centre(&self) -> Vec<f64> {
        let others = &self.points[..self.points.len() - 1];
        let mean = |i: usize| others.iter().map(|(_, x)| x[i]).sum::<f64>() / others.len() as f64;
        (0..others.len()).map(mean).collect()
    }

    fn shrink(&mut self) {
        let best = self.points[0].1.clone();
        for i in 1..self.points.len() {
            let half = self.points[i].1.iter().zip(&best).map(|(x, b)| b + 0.5 * (x - b)).collect();
            self.points[i] = self.visit(half);
        }
    }

    fn step(&mut self) {
        self.points.sort_by(|a, b| a.0.total_cmp(&b.0));
        let last = self.points.len() - 1;
        let (best, second, worst) = (self.points[0].0, self.points[last - 1].0, self.points[last].0);
        let centre = self.centre();
        let reflected = self.along(&centre, -1.0);
        if reflected.0 < best {
            let expanded = self.along(&centre, -2.0);
            self.points[last] = if expanded.0 < reflected.0 { expanded } else { reflected };
        } else if reflected.0 < second {
            self.points[last] = reflected;
        } else {
            let outside = reflected.0 < worst;
            let contracted = self.along(&centre, if outside { -0.5 } else { 0.5 });
            if contracted.0 < reflected.0.min(worst) {
                self.points[last] = contracted;
            } else {
                self.shrink();
            }
        }
    }

    /// The standard deviation of the costs.
    fn spread(&self) -> f64 {
        let n = self.points.len() as f64;
        let mean = self.points.iter().map(|p| p.0).sum::<f64>() / n;
        (self.points.iter().map(|p| (p.0 - mean) * (p.0 - mean)).sum::<f64>() / n).sqrt()
    }
}

/// Every point that the search from `start` asks the cost of, in order, with the cost: to its end, or the first so many.
pub fn path(start: &[f64], most: usize, cost: impl FnMut(&[f64]) -> f64) -> Vec<Point> {
    let mut simplex = Simplex::around(start, cost);
    while simplex.visited.len() < most && !(simplex.spread() < SPREAD) {
        simplex.step();
    }
    simplex.visited.truncate(most);
    simplex.visited
}

/// A search from its start to its end: the best point where the costs came together on a finite one above 0, and how long it ran.
pub struct Outcome {
    pub converged: Option<Point>,
    pub iterations: u64,
    pub capped: bool,
}

pub fn run(start: &[f64], most: u64, cost: impl FnMut(&[f64]) -> f64) -> Outcome {
    let mut simplex = Simplex::around(start, cost);
    let mut iterations = 0;
    while iterations < most && !(simplex.spread() < SPREAD) {
        simplex.step();
        iterations += 1;
    }
    let together = simplex.spread() < SPREAD;
    let best = simplex.points.into_iter().min_by(|a, b| a.0.total_cmp(&b.0)).filter(|best| best.0.is_finite() && best.0 > 0.0);
    Outcome { converged: best.filter(|_| together), iterations, capped: !together }
}
