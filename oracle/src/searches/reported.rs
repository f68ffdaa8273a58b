//! What a report is asked of: families, runs as they stand, and five columns to write into.

use super::asked::Asked;
use super::lent::{push, Columns, Lent, Report, Slice};
use crate::draw::Draw;
use crate::{rules, simplex};

#[derive(Clone)]
pub struct Reported {
    pub error: u8,
    pub genome: u8,
    pub runs: u64,
    pub simplexes: Vec<f64>,
    pub iterations: Vec<u64>,
    pub stopped: Vec<u8>,
    pub converged: Vec<u8>,
    pub costs: Vec<f64>,
    pub places: Vec<u64>,
    pub lengths: Vec<u64>,
    pub caps: Vec<u8>,
}

impl Reported {
    pub fn words(&self) -> Vec<u64> {
        let mut w = vec![self.error.into(), self.genome.into(), self.runs];
        push(&mut w, &self.simplexes);
        push(&mut w, &self.iterations);
        push(&mut w, &self.stopped);
        push(&mut w, &self.converged);
        push(&mut w, &self.costs);
        push(&mut w, &self.places);
        push(&mut w, &self.lengths);
        push(&mut w, &self.caps);
        w
    }

    pub fn read(w: &[u64]) -> Reported {
        let mut columns = Columns(&w[3..]);
        Reported {
            error: w[0] as u8,
            genome: w[1] as u8,
            runs: w[2],
            simplexes: columns.take(),
            iterations: columns.take(),
            stopped: columns.take(),
            converged: columns.take(),
            costs: columns.take(),
            places: columns.take(),
            lengths: columns.take(),
            caps: columns.take(),
        }
    }

    /// The runs of a search, wherever they stand, with just the room that they need.
    pub fn of(a: &Asked) -> Reported {
        let (error, genome, runs, n) = (a.problem.error, a.problem.genome, a.runs, a.runs as usize);
        let (simplexes, iterations, stopped) = (a.simplexes.clone(), a.iterations.clone(), a.stopped.clone());
        let (flags, wholes, costs) = (vec![1; n], vec![0; n], vec![0.0; n]);
        let (converged, places, lengths) = (flags.clone(), wholes.clone(), wholes);
        Reported { error, genome, runs, simplexes, iterations, stopped, converged, costs, places, lengths, caps: flags }
    }

    pub fn lent(&self) -> Lent {
        Lent {
            simplexes: Slice::of(&self.simplexes),
            iterations: Slice::of(&self.iterations),
            stopped: Slice::of(&self.stopped),
            ready: Slice::of(&[]),
            table: Slice::of(&[]),
        }
    }

    pub fn report(&self) -> Report {
        Report {
            converged: Slice::of(&self.converged),
            costs: Slice::of(&self.costs),
            places: Slice::of(&self.places),
            lengths: Slice::of(&self.lengths),
            caps: Slice::of(&self.caps),
        }
    }

    pub fn width(&self) -> usize {
        rules::list_length(self.error == 0, self.genome != 0) + 1
    }

    pub fn cap(&self) -> u64 {
        simplex::cap(self.genome != 0)
    }

    /// The room in each of the eight slices, and the entries that a run takes of it.
    pub fn rooms(&self) -> [(usize, usize); 8] {
        let flags = [&self.stopped, &self.converged, &self.caps].map(|column| (column.len(), 1));
        let wholes = [&self.iterations, &self.places, &self.lengths].map(|column| (column.len(), 1));
        let numbers = [(self.simplexes.len(), self.width() * self.width()), (self.costs.len(), 1)];
        [numbers[0], numbers[1], wholes[0], wholes[1], wholes[2], flags[0], flags[1], flags[2]]
    }

    /// The slice of a number, cut to so many entries.
    pub fn cut(&mut self, slice: usize, to: usize) {
        match slice {
            0 => self.simplexes.truncate(to),
            1 => self.costs.truncate(to),
            2 => self.iterations.truncate(to),
            3 => self.places.truncate(to),
            4 => self.lengths.truncate(to),
            5 => self.stopped.truncate(to),
            6 => self.converged.truncate(to),
            _ => self.caps.truncate(to),
        }
    }

    /// 2 and 10, and whether each applies.
    pub fn rules(&self) -> [(u64, bool); 2] {
        let short = |(room, each): (usize, usize)| (room as u128) < u128::from(self.runs) * each as u128;
        [(2, self.runs > 65_535), (10, self.rooms().into_iter().any(short))]
    }

    pub fn refuses(&self, numbers: &[u64]) -> bool {
        self.rules().iter().all(|(number, holds)| *holds == numbers.contains(number))
    }

    // ---- drawing

    /// Costs of a few values or many, none a NaN; iterations about the cap or of any size.
    pub fn drawn(d: &mut Draw, error: u8, genome: u8, runs: u64) -> Reported {
        let (n, none, empty) = (runs as usize, vec![], vec![]);
        let (simplexes, iterations, stopped) = (vec![], vec![], vec![]);
        let (converged, costs, places, lengths, caps) = (none, empty, vec![], vec![], vec![]);
        let mut r = Reported { error, genome, runs, simplexes, iterations, stopped, converged, costs, places, lengths, caps };
        let (width, cap) = (r.width(), r.cap());
        let few = [d.octaves(-3, 20), d.octaves(4, 12), 0.0, -0.0, f64::INFINITY];
        for _ in 0..n * width {
            r.simplexes.push(if d.one_in(2) { d.pick(&few) } else { d.octaves(4, 20) });
            r.simplexes.extend((1..width).map(|_| d.any()));
        }
        for _ in 0..n {
            let about = cap - 2 + d.below(4);
            r.iterations.push(if d.one_in(2) { about } else { d.below(cap) });
            r.stopped.push(if d.one_in(2) { 0 } else { d.below(256) as u8 });
        }
        let flags = |d: &mut Draw| (0..n).map(|_| d.below(256) as u8).collect::<Vec<u8>>();
        (r.converged, r.caps) = (flags(d), flags(d));
        r.costs = (0..n).map(|_| d.any()).collect();
        (r.places, r.lengths) = ((0..n).map(|_| d.word()).collect(), (0..n).map(|_| d.word()).collect());
        r
    }

    /// A few entries more in each slice.
    pub fn longer(&mut self, d: &mut Draw) {
        let more = |d: &mut Draw| 1 + d.below(4) as usize;
        self.simplexes.extend((0..more(d)).map(|_| d.any()));
        self.costs.extend((0..more(d)).map(|_| d.any()));
        for column in [&mut self.iterations, &mut self.places, &mut self.lengths] {
            column.extend((0..more(d)).map(|_| d.word()));
        }
        for column in [&mut self.stopped, &mut self.converged, &mut self.caps] {
            column.extend((0..more(d)).map(|_| d.below(256) as u8));
        }
    }
}
