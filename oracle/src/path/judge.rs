//! The port's path beside the Rust's over the port's routines, step by step and bit for bit, by the oracle's own calls: what a step answers
//! goes into those behind it.

use crate::call::Call;
use crate::layer3::rust::FIT;
use crate::layer4::selection::ATTEMPT;
use crate::lines::{line, run_words, Found};
use crate::sample::{Sample, BUDGETS, CONFIGURATIONS};
use crate::simplex::Run;
use crate::words::push_bins;
use crate::{layer3, layer4, port_side};

/// In the path's order.
const STEPS: [&str; 8] = ["bins", "shelf share", "starts", "runs", "attempts", "selection", "cutoffs", "the same without the library"];

/// How many words were compared at a step, and how many differ.
pub struct Step {
    pub name: &'static str,
    pub compared: usize,
    pub apart: usize,
}

pub struct Path {
    calls: Vec<Call>,
    pub steps: Vec<Step>,
    /// A row for each call, as the replay has them: its number, its input and the Rust's answer.
    pub rows: String,
    pub runs: Vec<Vec<Run>>,
    attempts: Vec<u64>,
    /// Whether there is a fit, and the fit; then the cutoffs.
    selected: Vec<u64>,
    cutoffs: Vec<u64>,
}

impl Path {
    fn compare(&mut self, name: &'static str, ours: &[u64], theirs: &[u64]) {
        let apart = ours.iter().zip(theirs).filter(|(a, b)| a != b).count() + ours.len().abs_diff(theirs.len());
        let compared = ours.len().max(theirs.len());
        match self.steps.iter_mut().find(|step| step.name == name) {
            Some(step) => (step.compared, step.apart) = (step.compared + compared, step.apart + apart),
            None => self.steps.push(Step { name, compared, apart }),
        }
    }

    /// The port's answer to a call.
    fn ask(&mut self, step: &'static str, call: &str, input: Vec<u64>) -> Vec<u64> {
        let call = self.calls.iter().find(|known| known.name == call).expect("the oracle has the call");
        let (ours, theirs) = ((call.ours)(&input), (call.theirs)(&input));
        self.rows += &line(&format!("{:x}", call.number), &[&input[..], &theirs].concat());
        self.compare(step, &ours, &theirs);
        ours
    }

    fn attempt(&mut self, s: &Sample, families: (u8, u8), share: f64) {
        let search = s.search(families, share);
        let starts: Vec<f64> = self.ask("starts", "fit_starts", search.words())[2..].iter().map(|&word| f64::from_bits(word)).collect();
        let runs = port_side::runs(s, families, &starts);
        let answer = self.ask("attempts", "attempt_from_numbers", s.run_table(families, &runs).words());
        self.attempts.extend(&answer[1..][..ATTEMPT]);
        self.runs.push(runs);
    }

    /// From the bins to the cutoffs.
    pub fn of(s: &Sample) -> Path {
        let calls = [layer3::cutoff_calls(), layer4::calls()].into_iter().flatten().collect();
        let (steps, rows, runs, attempts) = (vec![], String::new(), vec![], vec![]);
        let mut path = Path { calls, steps, rows, runs, attempts, selected: vec![], cutoffs: vec![] };
        let mut spectrum = vec![1f64.to_bits(), s.valley as u64, s.peak as u64];
        push_bins(&mut spectrum, &s.bins);
        let share = f64::from_bits(path.ask("shelf share", "empirical_shelf_share", spectrum)[1]);
        CONFIGURATIONS.iter().for_each(|&families| path.attempt(s, families, share));
        path.selected = path.ask("selection", "select_fit", path.attempts.clone());
        let fit = path.selected[1..][..FIT].to_vec();
        for budget in BUDGETS {
            let answer = path.ask("cutoffs", "hole_cutoff_sure", [&fit[..], &[budget.to_bits()]].concat());
            path.cutoffs.push(answer[3]);
        }
        for cutoff in ["crossover", "error_floor_cutoff"] {
            let answer = path.ask("cutoffs", cutoff, fit.clone());
            path.cutoffs.push(answer[1]);
        }
        path
    }

    /// Beside the file's bins, and what the Rust's own search found over the four routines of docs/ROUTINES.md.
    pub fn beside(&mut self, file: &[u8], s: &Sample, found: &Found) {
        let wide = |bins: &[u32]| bins.iter().map(|&n| n.into()).collect::<Vec<u64>>();
        let all = |runs: &[Vec<Run>]| runs.iter().flatten().flat_map(run_words).collect::<Vec<u64>>();
        self.compare("bins", &wide(&port_side::bins(file)), &wide(&s.bins));
        self.compare("runs", &all(&self.runs), &all(&found.runs));
        let ours = [&self.attempts[..], &self.selected, &self.cutoffs].concat();
        let o = &found.outcome;
        self.compare("the same without the library", &ours, &[&o.attempts.concat()[..], &o.selected, &o.cutoffs].concat());
        self.steps.sort_by_key(|step| STEPS.iter().position(|name| *name == step.name));
    }
}
