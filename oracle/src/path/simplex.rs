//! Nelder and Mead's search, to its end.

/// Added to each coordinate in turn for the first vertices.
const STEP: f64 = 0.5;

/// The mean squared deviation of the costs below which a search ends.
const TOGETHER: f64 = 1e-8;

#[derive(Clone)]
struct Vertex {
    cost: f64,
    at: Vec<f64>,
}

/// The best point and its cost. It counts for an attempt only where the run has converged.
#[derive(Clone)]
pub struct Run {
    pub converged: bool,
    pub cost: f64,
    pub list: Vec<f64>,
    pub iterations: u64,
    pub capped: bool,
}

struct Simplex<F> {
    cost: F,
    vertices: Vec<Vertex>,
}

impl<F: FnMut(&[f64]) -> f64> Simplex<F> {
    fn vertex(&mut self, at: Vec<f64>) -> Vertex {
        Vertex { cost: (self.cost)(&at), at }
    }

    /// By cost, the earlier first on ties.
    fn order(&mut self) {
        self.vertices.sort_by(|a, b| a.cost.total_cmp(&b.cost));
    }

    fn together(&self) -> bool {
        let n = self.vertices.len() as f64;
        let mean = self.vertices.iter().map(|v| v.cost).sum::<f64>() / n;
        self.vertices.iter().map(|v| (v.cost - mean) * (v.cost - mean)).sum::<f64>() / n < TOGETHER
    }

    /// Of all but the worst.
    fn centroid(&self) -> Vec<f64> {
        let others = &self.vertices[..self.vertices.len() - 1];
        (0..others.len()).map(|i| others.iter().map(|v| v.at[i]).sum::<f64>() / others.len() as f64).collect()
    }

    /// What takes the worst one's place, or none.
    fn replacement(&mut self) -> Option<Vertex> {
        let (c, last) = (self.centroid(), self.vertices.len() - 1);
        let worst = self.vertices[last].clone();
        let from_worst = |by: f64| c.iter().zip(&worst.at).map(|(c, w)| c + by * (c - w)).collect::<Vec<f64>>();
        let towards = |to: &[f64]| c.iter().zip(to).map(|(c, x)| c + 0.5 * (x - c)).collect::<Vec<f64>>();
        let reflected = self.vertex(from_worst(1.0));
        if reflected.cost < self.vertices[0].cost {
            let expanded = self.vertex(from_worst(2.0));
            return Some(if expanded.cost < reflected.cost { expanded } else { reflected });
        }
        if reflected.cost < self.vertices[last - 1].cost {
            return Some(reflected);
        }
        if reflected.cost < worst.cost {
            let tried = self.vertex(towards(&reflected.at));
            return (tried.cost <= reflected.cost).then_some(tried);
        }
        let tried = self.vertex(towards(&worst.at));
        (tried.cost < worst.cost).then_some(tried)
    }

    fn shrink(&mut self) {
        let best = self.vertices[0].at.clone();
        for i in 1..self.vertices.len() {
            let half = self.vertices[i].at.iter().zip(&best).map(|(x, b)| x + 0.5 * (b - x)).collect();
            self.vertices[i] = self.vertex(half);
        }
    }

    fn step(&mut self) {
        match self.replacement() {
            Some(vertex) => *self.vertices.last_mut().expect("a simplex has vertices") = vertex,
            None => self.shrink(),
        }
    }
}

/// From a start until the costs are together, or `cap` iterations are done.
pub fn run(start: &[f64], cap: u64, cost: impl FnMut(&[f64]) -> f64) -> Run {
    let mut simplex = Simplex { cost, vertices: vec![] };
    for i in 0..=start.len() {
        let mut at = start.to_vec();
        if i > 0 {
            at[i - 1] += STEP;
        }
        let vertex = simplex.vertex(at);
        simplex.vertices.push(vertex);
    }
    let mut iterations = 0;
    simplex.order();
    while iterations < cap && !simplex.together() {
        simplex.step();
        simplex.order();
        iterations += 1;
    }
    let capped = iterations == cap;
    let best = simplex.vertices.swap_remove(0);
    let converged = !capped && best.cost.is_finite() && best.cost > 0.0;
    Run { converged, cost: best.cost, list: best.at, iterations, capped }
}
