//! What a search is asked of: a problem whose list has the starts one behind the other, runs, limits, and the lent slices.

use super::lent::{push, Columns, Lent, Slice};
use crate::draw::Draw;
use crate::layer3::Problem;
use crate::simplex::State;
use crate::{prepared, rules, simplex};

#[derive(Clone)]
pub struct Asked {
    pub problem: Problem,
    pub runs: u64,
    /// One limit for each call that goes on.
    pub limits: Vec<u64>,
    pub simplexes: Vec<f64>,
    pub iterations: Vec<u64>,
    pub stopped: Vec<u8>,
    pub ready: Vec<f64>,
}

/// What a problem's words have behind the scale: the runs.
const BESIDE: usize = 1;

impl Asked {
    pub fn words(&self) -> Vec<u64> {
        let mut w = self.problem.words(&[self.runs]);
        push(&mut w, &self.limits);
        push(&mut w, &self.simplexes);
        push(&mut w, &self.iterations);
        push(&mut w, &self.stopped);
        push(&mut w, &self.ready);
        w
    }

    pub fn read(w: &[u64]) -> Asked {
        let problem = Problem::read(w, BESIDE);
        let mut at = 5 + BESIDE;
        for _ in 0..3 {
            at += 1 + w[at] as usize;
        }
        let mut columns = Columns(&w[at..]);
        let (limits, simplexes, iterations) = (columns.take(), columns.take(), columns.take());
        Asked { problem, runs: w[1], limits, simplexes, iterations, stopped: columns.take(), ready: columns.take() }
    }

    pub fn lent(&self) -> Lent {
        Lent {
            simplexes: Slice::of(&self.simplexes),
            iterations: Slice::of(&self.iterations),
            stopped: Slice::of(&self.stopped),
            ready: Slice::of(&self.ready),
            table: Slice::of(&self.problem.table),
        }
    }

    // ---- sizes

    pub fn list_length(&self) -> usize {
        rules::list_length(self.problem.weibull(), self.problem.with_shelf())
    }

    /// The numbers of a row, a cost and a list; a simplex has as many rows.
    pub fn width(&self) -> usize {
        self.list_length() + 1
    }

    /// The numbers of a simplex.
    pub fn each(&self) -> usize {
        self.width() * self.width()
    }

    pub fn cap(&self) -> u64 {
        simplex::cap(self.problem.with_shelf())
    }

    /// The first limit.
    pub fn limit(&self) -> u64 {
        self.limits[0]
    }

    // ---- refusals

    /// A slice is too short for so many runs: 10.
    fn short(&self, runs: u64) -> bool {
        let (p, runs) = (&self.problem, u128::from(runs));
        let less = |room: usize, needed: u128| (room as u128) < needed;
        less(self.simplexes.len(), runs * self.each() as u128)
            || less(self.iterations.len(), runs)
            || less(self.stopped.len(), runs)
            || less(self.ready.len(), 2 * (u128::from(p.window_end) + 2))
            || (p.with_shelf() && less(p.table.len(), u128::from(p.window_end) + 1))
    }

    /// How many runs the starts are.
    pub fn started(&self) -> u64 {
        (self.problem.theta.len() / self.list_length()) as u64
    }

    /// What a beginning takes: 1, 2, 4, 5, 6, 7 and 10, and whether each applies.
    pub fn of_a_beginning(&self) -> Vec<(u64, bool)> {
        let odd = self.problem.theta.len() % self.list_length() != 0;
        let mut rules = self.of_runs(self.started());
        rules.insert(5, (7, odd));
        rules
    }

    /// What goes on takes 1, 2, 4, 5, 6 and 10.
    pub fn of_going_on(&self) -> Vec<(u64, bool)> {
        self.of_runs(self.runs)
    }

    fn of_runs(&self, runs: u64) -> Vec<(u64, bool)> {
        let [few, (_, many), zero, outside, none, ..] = rules::of_a_fit(&self.problem);
        vec![few, (2, many || runs > 65_535), zero, outside, none, (10, self.short(runs))]
    }

    // ---- states

    pub fn state(&self, i: usize) -> State {
        state(&self.lent(), self.width(), i)
    }

    pub fn put(&mut self, i: usize, state: &State) {
        let (each, width) = (self.each(), self.width());
        for (row, vertex) in self.simplexes[i * each..][..each].chunks_exact_mut(width).zip(&state.vertices) {
            row[0] = vertex.cost;
            row[1..].copy_from_slice(&vertex.at);
        }
        (self.iterations[i], self.stopped[i]) = (state.iterations, state.stopped.into());
    }

    pub fn then(mut self, change: impl FnOnce(&mut Asked)) -> Asked {
        change(&mut self);
        self
    }

    // ---- drawing

    /// So many runs over a problem, and slices that hold them, with a few entries more; what stands in them is of any bits.
    pub fn over(d: &mut Draw, problem: Problem, runs: u64) -> Asked {
        let (limits, none) = (vec![d.below(5)], vec![]);
        let mut a = Asked { problem, runs, limits, simplexes: none, iterations: vec![], stopped: vec![], ready: vec![] };
        let (room, n) = (runs as usize * a.each() + d.below(4) as usize, (runs + d.below(3)) as usize);
        let window = prepared::entries(a.problem.window_end.min(70_000)) + d.below(3);
        a.simplexes = (0..room).map(|_| d.any()).collect();
        a.iterations = (0..n).map(|_| d.word()).collect();
        a.stopped = (0..n + d.below(2) as usize).map(|_| d.below(256) as u8).collect();
        a.ready = (0..window).map(|_| d.any()).collect();
        a
    }

    /// A run from each start in the problem's list.
    pub fn from_starts(d: &mut Draw, problem: Problem) -> Asked {
        let length = rules::list_length(problem.weibull(), problem.with_shelf());
        let runs = (problem.theta.len() / length) as u64;
        Asked::over(d, problem, runs)
    }
}

/// The run of a number as it stands in lent slices.
pub fn state(lent: &Lent, width: usize, i: usize) -> State {
    let each = width * width;
    let vertex = |row: &[f64]| simplex::Vertex { cost: row[0], at: row[1..].to_vec() };
    let vertices = lent.simplexes[i * each..][..each].chunks_exact(width).map(vertex).collect();
    State { vertices, iterations: lent.iterations[i], stopped: lent.stopped[i] != 0 }
}
