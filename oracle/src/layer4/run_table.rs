//! What an attempt is asked of: a problem whose list holds the numbers of all lists, a valley, a mass limit, and a run table of six columns.

use crate::draw::Draw;
use crate::layer3::Problem;
use crate::rules;
use crate::words::{float, push_slice};

#[derive(Clone)]
pub struct RunTable {
    pub problem: Problem,
    pub valley: u64,
    pub mass_limit: f64,
    /// A byte for each flag: 0 is no, and any other yes.
    pub converged: Vec<u8>,
    pub costs: Vec<f64>,
    pub places: Vec<u64>,
    pub lengths: Vec<u64>,
    pub iterations: Vec<u64>,
    pub caps: Vec<u8>,
}

/// One row of the table.
#[derive(Clone, Copy)]
pub struct Run {
    pub converged: bool,
    pub cost: f64,
    pub place: u64,
    pub length: u64,
    pub iterations: u64,
    pub capped: bool,
}

/// What a call has behind the scale: the valley and the mass limit.
const BESIDE: usize = 2;

fn push(w: &mut Vec<u64>, column: impl ExactSizeIterator<Item = u64>) {
    w.push(column.len() as u64);
    w.extend(column);
}

impl RunTable {
    /// The problem with the valley and the mass limit behind the scale, then the columns.
    pub fn words(&self) -> Vec<u64> {
        let mut w = self.problem.words(&[self.valley, self.mass_limit.to_bits()]);
        push(&mut w, self.converged.iter().map(|&b| b.into()));
        push_slice(&mut w, &self.costs);
        for column in [&self.places, &self.lengths, &self.iterations] {
            push(&mut w, column.iter().copied());
        }
        push(&mut w, self.caps.iter().map(|&b| b.into()));
        w
    }

    pub fn read(w: &[u64]) -> RunTable {
        let problem = Problem::read(w, BESIDE);
        let mut at = 5 + BESIDE;
        for _ in 0..3 {
            at += 1 + w[at] as usize;
        }
        let mut next = || {
            let column = w[at + 1..][..w[at] as usize].to_vec();
            at += 1 + column.len();
            column
        };
        let flags = |column: Vec<u64>| column.into_iter().map(|word| word as u8).collect();
        RunTable {
            problem,
            valley: w[1],
            mass_limit: float(w, 2),
            converged: flags(next()),
            costs: next().into_iter().map(f64::from_bits).collect(),
            places: next(),
            lengths: next(),
            iterations: next(),
            caps: flags(next()),
        }
    }

    pub fn columns(&self) -> [usize; 6] {
        let numbers = [self.costs.len(), self.places.len(), self.lengths.len(), self.iterations.len()];
        [self.converged.len(), numbers[0], numbers[1], numbers[2], numbers[3], self.caps.len()]
    }

    /// As many runs as the shortest column has.
    pub fn runs(&self) -> Vec<Run> {
        let most = self.columns().into_iter().min().unwrap_or(0);
        (0..most).map(|i| self.run(i)).collect()
    }

    pub fn run(&self, i: usize) -> Run {
        Run {
            converged: self.converged[i] != 0,
            cost: self.costs[i],
            place: self.places[i],
            length: self.lengths[i],
            iterations: self.iterations[i],
            capped: self.caps[i] != 0,
        }
    }

    /// The list of a run that lies in the lent numbers.
    pub fn list(&self, run: Run) -> &[f64] {
        &self.problem.theta[run.place as usize..][..run.length as usize]
    }

    pub fn refusal(&self) -> Option<u64> {
        rules::first(&rules::of_an_attempt(self))
    }

    /// Where the shelf's table must stand as it was found: from the start for a number or without a shelf, else behind the window end.
    pub fn stands_from(&self, number: u64) -> usize {
        if number == 0 && self.problem.with_shelf() {
            self.problem.window_end as usize + 1
        } else {
            0
        }
    }

    pub fn then(mut self, change: impl FnOnce(&mut RunTable)) -> RunTable {
        change(&mut self);
        self
    }

    // ---- drawing

    /// No run yet.
    pub fn over(d: &mut Draw, mut problem: Problem) -> RunTable {
        problem.theta.clear();
        let valley = 2 + d.below(problem.peak);
        let mass_limit = match d.below(3) {
            0 => 1.1,
            1 => 1.0 + d.octaves(-5, 2),
            _ => d.octaves(3, 20),
        };
        let columns = (vec![], vec![], vec![], vec![], vec![], vec![]);
        let (converged, costs, places, lengths, iterations, caps) = columns;
        RunTable { problem, valley, mass_limit, converged, costs, places, lengths, iterations, caps }
    }

    pub fn of(d: &mut Draw, error: u8, genome: u8, runs: u64) -> RunTable {
        let window_end = d.window();
        RunTable::to(d, error, genome, window_end, runs)
    }

    pub fn to(d: &mut Draw, error: u8, genome: u8, window_end: u64, runs: u64) -> RunTable {
        let mut p = Problem::to(d, error, genome, window_end);
        p.peak = 2 + d.below((window_end / 2).max(1));
        let mut t = RunTable::over(d, p);
        let few = d.one_in(3).then(|| [d.octaves(4, 12), d.octaves(4, 12)]);
        for _ in 0..runs {
            let list = t.problem.list(d);
            let cost = match few {
                Some(costs) => d.pick(&costs),
                None => d.octaves(4, 12),
            };
            let run = Run { converged: !d.one_in(5), cost, place: 0, length: 0, iterations: d.below(2000), capped: d.one_in(5) };
            t.push(run, &list);
        }
        t
    }

    pub fn ordinary(d: &mut Draw) -> RunTable {
        let (error, genome, runs) = (d.family(), d.family(), 1 + d.below(6));
        RunTable::of(d, error, genome, runs)
    }

    /// A run whose list stands behind those that are there.
    pub fn push(&mut self, run: Run, list: &[f64]) {
        let (place, length) = (self.problem.theta.len() as u64, list.len() as u64);
        self.problem.theta.extend(list);
        self.push_row(Run { place, length, ..run });
    }

    pub fn push_row(&mut self, run: Run) {
        self.converged.push(run.converged.into());
        self.costs.push(run.cost);
        self.places.push(run.place);
        self.lengths.push(run.length);
        self.iterations.push(run.iterations);
        self.caps.push(run.capped.into());
    }

    pub fn put(&mut self, i: usize, run: Run) {
        self.converged[i] = run.converged.into();
        self.costs[i] = run.cost;
        self.places[i] = run.place;
        self.lengths[i] = run.length;
        self.iterations[i] = run.iterations;
        self.caps[i] = run.capped.into();
    }

    /// One of the runs, now converged.
    pub fn one(&mut self, d: &mut Draw) -> usize {
        let i = d.below(self.costs.len() as u64) as usize;
        self.converged[i] = 1;
        i
    }

    /// An entry of each converged run's list.
    pub fn put_entry(&mut self, entry: usize, mut by: impl FnMut() -> f64) {
        for run in self.runs().into_iter().filter(|run| run.converged) {
            self.problem.theta[run.place as usize + entry] = by();
        }
    }
}
