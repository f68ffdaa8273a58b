//! What a cost and a fit are asked of: bins, a scale, a window end, a peak, two families, a parameter list and a lent table.

use crate::draw::Draw;
use crate::rules;
use crate::words::{float, push_slice, slice};

#[derive(Clone)]
pub struct Problem {
    pub scale: f64,
    pub window_end: u64,
    pub peak: u64,
    pub error: u8,
    pub genome: u8,
    pub theta: Vec<f64>,
    pub bins: Vec<u32>,
    pub table: Vec<f64>,
}

/// Logarithms of document 01's error starts: tail exponent, then singleton probability over the rest, then shape.
const WEIBULL: [[f64; 3]; 3] = [[0.405, 1.386, -2.996], [0.916, 2.197, -0.693], [0.693, 2.944, 0.0]];
const PARETO: [[f64; 2]; 2] = [[0.405, 1.386], [0.916, 2.944]];

impl Problem {
    pub fn weibull(&self) -> bool {
        self.error == 0
    }

    pub fn with_shelf(&self) -> bool {
        self.genome != 0
    }

    /// Where the genome family's own parameters begin: the repeat's ratio, and a shelf's three.
    pub fn base(&self) -> usize {
        if self.weibull() {
            7
        } else {
            6
        }
    }

    /// The scale, what a call has beside the problem, and the rest.
    pub fn words(&self, beside: &[u64]) -> Vec<u64> {
        let mut words = vec![self.scale.to_bits()];
        words.extend(beside);
        words.extend([self.window_end, self.peak, self.error.into(), self.genome.into()]);
        push_slice(&mut words, &self.theta);
        words.push(self.bins.len() as u64);
        words.extend(self.bins.iter().map(|&n| u64::from(n)));
        push_slice(&mut words, &self.table);
        words
    }

    /// The same back: `beside` words stand behind the scale.
    pub fn read(w: &[u64], beside: usize) -> Problem {
        let w = &[&w[..1], &w[1 + beside..]].concat();
        let theta = slice(w, 5);
        let at = 6 + theta.len();
        let bins: Vec<u32> = w[at + 1..][..w[at] as usize].iter().map(|&n| n as u32).collect();
        let table = slice(w, at + 1 + bins.len());
        Problem { scale: float(w, 0), window_end: w[1], peak: w[2], error: w[3] as u8, genome: w[4] as u8, theta, bins, table }
    }

    /// The refusal of a cost or a fit.
    pub fn refusal(&self) -> Option<u64> {
        rules::first(&rules::of_a_fit(self))
    }

    pub fn then(mut self, change: impl FnOnce(&mut Problem)) -> Problem {
        change(&mut self);
        self
    }

    // ---- drawing

    /// Families, list and spectrum as a search has them, in a small window.
    pub fn ordinary(d: &mut Draw) -> Problem {
        let (error, genome) = (d.family(), d.family());
        Problem::of(d, error, genome)
    }

    pub fn of(d: &mut Draw, error: u8, genome: u8) -> Problem {
        let window_end = d.window();
        Problem::to(d, error, genome, window_end)
    }

    pub fn to(d: &mut Draw, error: u8, genome: u8, window_end: u64) -> Problem {
        let peak = 2 + d.below(window_end.max(3));
        let scale = if d.one_in(2) { 1.0 } else { d.between(1.0, 8.0) };
        let (bins, room) = (window_end + d.below(3), window_end + 1 + d.below(3));
        let mut p = Problem { scale, window_end, peak, error, genome, theta: vec![], bins: vec![], table: vec![] };
        p.theta = p.list(d);
        p.spectrum(d, bins.max(2));
        p.table = (0..room).map(|_| d.any()).collect();
        p
    }

    /// A start of document 01 with noise.
    pub fn list(&self, d: &mut Draw) -> Vec<f64> {
        let mut list = vec![d.between(-4.0, 4.0), d.between(-6.0, 2.0), d.between(-4.0, 4.0), d.between(-8.0, 2.0)];
        let error: &[f64] = if self.weibull() { &d.pick(&WEIBULL) } else { &d.pick(&PARETO) };
        list.extend(error.iter().map(|x| x + d.between(-1.0, 1.0)));
        list.push(d.between(-4.0, 4.0));
        if self.with_shelf() {
            list.extend([d.between(-6.0, 4.0), d.between(-4.0, 4.0), d.between(-4.0, 4.0)]);
        }
        list
    }

    /// Errors that fall by the cube, a lobe about the peak, a gap now and then; the first bin is never empty.
    pub fn spectrum(&mut self, d: &mut Draw, bins: u64) {
        let (errors, lobe, peak) = (d.octaves(10, 24), d.octaves(6, 20), self.peak as f64);
        let at = |i: u64| {
            let count = (i + 1) as f64;
            let away = (count - peak) / (1.0 + 0.3 * peak);
            errors / (count * count * count) + lobe / (1.0 + away * away * away * away)
        };
        self.bins = (0..bins).map(|i| if i > 0 && d.one_in(5) { 0 } else { (at(i) * d.between(0.8, 1.2)) as u32 }).collect();
    }

    /// Changes it so that a number of document 01 applies.
    pub fn refused(&mut self, d: &mut Draw, number: u64) {
        match number {
            1 if d.one_in(2) => self.bins.truncate(d.below(2) as usize),
            1 => self.peak = d.below(2),
            2 if d.one_in(2) => self.peak = d.window_too_far(),
            2 => self.window_end = d.window_too_far(),
            4 => self.bins.fill(0),
            5 if d.one_in(2) => self.window_end = self.bins.len() as u64 + 1 + d.below(5),
            5 => self.window_end = 0,
            6 if d.one_in(2) => {
                self.bins.iter_mut().for_each(|n| *n = 1 + *n % 100);
                self.scale = d.octaves(8, 30);
            }
            6 => {
                let end = self.window_end.min(self.bins.len() as u64) as usize;
                self.bins[..end].fill(0);
                self.bins.push(1 + d.below(9) as u32);
            }
            7 => self.theta.resize_with(wrong_length(d, self.theta.len()), || d.between(-1.0, 1.0)),
            _ => {
                self.turn_to_shelf(d);
                self.table.truncate(d.below(self.window_end.clamp(1, 40) + 1) as usize);
            }
        }
    }

    /// The shelf family, and three parameters more where it had the other.
    pub fn turn_to_shelf(&mut self, d: &mut Draw) {
        if !self.with_shelf() {
            self.genome = 1;
            self.theta.extend([d.between(-6.0, 4.0), d.between(-4.0, 4.0), d.between(-4.0, 4.0)]);
        }
    }
}

/// One off, or any other.
fn wrong_length(d: &mut Draw, length: usize) -> usize {
    match d.below(3) {
        0 => length + 1,
        1 => length.saturating_sub(1),
        _ => (length + 1 + d.below(14) as usize) % 15,
    }
}
