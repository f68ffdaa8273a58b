//! Nelder and Mead's search as document 02's request 6 words it, over any cost. Numbers are f64, one rounding for each operation; a sum
//! begins at its first term. "Earlier" is the place in the list as it stands: ordering moves the vertices, so the worst stands last.

/// Added to each coordinate in turn for the first vertices.
const ADDED: f64 = 0.5;

/// A run stops where the mean squared deviation of its costs is below this.
const TOGETHER: f64 = 1e-8;

/// The iterations that end a run untested.
pub fn cap(shelf: bool) -> u64 {
    if shelf {
        2_000
    } else {
        1_000
    }
}

/// A point and its cost.
#[derive(Clone, Debug, PartialEq)]
pub struct Vertex {
    pub cost: f64,
    pub at: Vec<f64>,
}

/// What an iteration did: which point it took, or from which side of the centroid it tried in vain and shrank.
#[derive(Clone, Copy, Debug, PartialEq)]
pub enum Move {
    Reflected,
    Expanded,
    /// The expansion was tried and was no cheaper.
    NotExpanded,
    Outer,
    Inner,
    ShrunkOuter,
    ShrunkInner,
}

/// A run as it stands between two turns.
#[derive(Clone, Debug, PartialEq)]
pub struct State {
    pub vertices: Vec<Vertex>,
    pub iterations: u64,
    pub stopped: bool,
}

/// Of each coordinate of two points.
fn each(a: &[f64], b: &[f64], to: impl Fn(f64, f64) -> f64) -> Vec<f64> {
    a.iter().zip(b).map(|(&a, &b)| to(a, b)).collect()
}

/// From the left, beginning at the first.
fn sum(mut terms: impl Iterator<Item = f64>) -> f64 {
    let first = terms.next().expect("a sum has terms");
    terms.fold(first, |sum, term| sum + term)
}

impl Vertex {
    fn at(at: Vec<f64>, cost: &mut impl FnMut(&[f64]) -> f64) -> Vertex {
        Vertex { cost: cost(&at), at }
    }
}

impl State {
    /// The start, then one vertex a coordinate.
    pub fn first(start: &[f64], mut cost: impl FnMut(&[f64]) -> f64) -> State {
        let mut vertices = vec![Vertex::at(start.to_vec(), &mut cost)];
        for i in 0..start.len() {
            let mut at = start.to_vec();
            at[i] += ADDED;
            vertices.push(Vertex::at(at, &mut cost));
        }
        State { vertices, iterations: 0, stopped: false }
    }

    /// At most so many turns.
    pub fn turns(&mut self, limit: u64, cap: u64, mut cost: impl FnMut(&[f64]) -> f64) {
        let mut left = limit;
        while left > 0 && self.turn(cap, &mut cost).is_some() {
            left -= 1;
        }
    }

    /// Nothing where the run has ended. Else the vertices are ordered and tested; where they don't stop the run, an iteration.
    pub fn turn(&mut self, cap: u64, cost: &mut impl FnMut(&[f64]) -> f64) -> Option<Move> {
        if self.stopped || self.iterations >= cap {
            return None;
        }
        self.order();
        if self.deviation() < TOGETHER {
            self.stopped = true;
            return None;
        }
        self.iterations += 1;
        Some(self.iterate(cost))
    }

    /// By cost, the earlier first on ties; the two zeros tie.
    fn order(&mut self) {
        for i in 1..self.vertices.len() {
            let mut to = i;
            while to > 0 && self.vertices[i].cost < self.vertices[to - 1].cost {
                to -= 1;
            }
            self.vertices[to..=i].rotate_right(1);
        }
    }

    /// The mean squared deviation of the costs, in the order of the vertices.
    pub fn deviation(&self) -> f64 {
        let (n, costs) = (self.vertices.len() as f64, || self.vertices.iter().map(|v| v.cost));
        let mean = sum(costs()) / n;
        sum(costs().map(|cost| (cost - mean) * (cost - mean))) / n
    }

    /// Of all but the worst, which stands last.
    fn centroid(&self) -> Vec<f64> {
        let others = &self.vertices[..self.vertices.len() - 1];
        let coordinates = self.vertices[0].at.len();
        (0..coordinates).map(|i| sum(others.iter().map(|v| v.at[i])) / others.len() as f64).collect()
    }

    /// Of ordered vertices.
    fn iterate(&mut self, cost: &mut impl FnMut(&[f64]) -> f64) -> Move {
        let last = self.vertices.len() - 1;
        let (c, w) = (self.centroid(), self.vertices[last].clone());
        let (best, second_worst) = (self.vertices[0].cost, self.vertices[last - 1].cost);
        let r = Vertex::at(each(&c, &w.at, |c, w| c + (c - w)), cost);
        let (taken, how) = if r.cost < best {
            let e = Vertex::at(each(&c, &w.at, |c, w| c + 2.0 * (c - w)), cost);
            if e.cost < r.cost {
                (e, Move::Expanded)
            } else {
                (r, Move::NotExpanded)
            }
        } else if r.cost < second_worst {
            (r, Move::Reflected)
        } else if r.cost < w.cost {
            let outer = Vertex::at(each(&c, &r.at, |c, r| c + 0.5 * (r - c)), cost);
            if outer.cost <= r.cost {
                (outer, Move::Outer)
            } else {
                return self.shrink(Move::ShrunkOuter, cost);
            }
        } else {
            let inner = Vertex::at(each(&c, &w.at, |c, w| c + 0.5 * (w - c)), cost);
            if inner.cost < w.cost {
                (inner, Move::Inner)
            } else {
                return self.shrink(Move::ShrunkInner, cost);
            }
        };
        self.vertices[last] = taken;
        how
    }

    /// Every vertex but the best goes half of the way to it, each in its place.
    fn shrink(&mut self, how: Move, cost: &mut impl FnMut(&[f64]) -> f64) -> Move {
        let b = self.vertices[0].at.clone();
        for x in &mut self.vertices[1..] {
            *x = Vertex::at(each(&x.at, &b, |x, b| x + 0.5 * (b - x)), cost);
        }
        how
    }

    /// The place of the least cost, the earlier on ties.
    pub fn best(&self) -> usize {
        let mut best = 0;
        for i in 1..self.vertices.len() {
            if self.vertices[i].cost < self.vertices[best].cost {
                best = i;
            }
        }
        best
    }

    pub fn converged(&self) -> bool {
        let cost = self.vertices[self.best()].cost;
        self.stopped && cost.is_finite() && cost > 0.0
    }

    pub fn capped(&self, cap: u64) -> bool {
        !self.stopped && self.iterations >= cap
    }
}

/// What a run came to, as a run table has it.
#[derive(Clone)]
pub struct Run {
    pub converged: bool,
    pub cost: f64,
    pub list: Vec<f64>,
    pub iterations: u64,
    pub capped: bool,
}

/// From a start to its end.
pub fn run(start: &[f64], cap: u64, mut cost: impl FnMut(&[f64]) -> f64) -> Run {
    let mut state = State::first(start, &mut cost);
    state.turns(u64::MAX, cap, cost);
    let (converged, capped, best) = (state.converged(), state.capped(cap), state.best());
    let Vertex { cost, at: list } = state.vertices.swap_remove(best);
    Run { converged, cost, list, iterations: state.iterations, capped }
}

#[cfg(test)]
#[path = "searches/simplex_tests.rs"]
mod tests;
