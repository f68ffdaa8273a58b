//! What a search found, as lines of hexadecimal words, so that another program reads it.

use crate::sample::CONFIGURATIONS;
use crate::sides::Outcome;
use crate::simplex::Run;
use std::fmt::Write;

/// The runs of each configuration from starts moved in one way, and what they come to.
pub struct Found {
    pub runs: Vec<Vec<Run>>,
    pub outcome: Outcome,
}

/// Converged, capped, iterations, the cost's bits and the list's.
pub fn run_words(run: &Run) -> Vec<u64> {
    let said = [u64::from(run.converged), run.capped.into(), run.iterations, run.cost.to_bits()];
    said.into_iter().chain(run.list.iter().map(|x| x.to_bits())).collect()
}

fn run_of(w: &[u64]) -> Run {
    let list = w[4..].iter().map(|&word| f64::from_bits(word)).collect();
    Run { converged: w[0] != 0, capped: w[1] != 0, iterations: w[2], cost: f64::from_bits(w[3]), list }
}

pub fn line(tag: &str, words: &[u64]) -> String {
    let mut line = tag.to_string();
    words.iter().for_each(|word| write!(line, " {word:x}").expect("a string takes it"));
    line + "\n"
}

impl Found {
    pub fn lines(&self) -> String {
        let mut text = String::new();
        for (i, runs) in self.runs.iter().enumerate() {
            text.extend(runs.iter().map(|run| line("run", &[&[i as u64][..], &run_words(run)].concat())));
        }
        text.extend(self.outcome.attempts.iter().map(|words| line("attempt", words)));
        text + &line("selected", &self.outcome.selected) + &line("cutoffs", &self.outcome.cutoffs)
    }

    /// Every search of a text, in its order; `cutoffs` ends one.
    pub fn all(text: &str) -> Vec<Found> {
        let empty =
            || Found { runs: vec![vec![]; CONFIGURATIONS.len()], outcome: Outcome { attempts: vec![], selected: vec![], cutoffs: vec![] } };
        let (mut all, mut now) = (vec![], empty());
        for line in text.lines() {
            let (tag, rest) = line.split_once(' ').unwrap_or((line, ""));
            let words: Vec<u64> =
                rest.split_whitespace().map(|word| u64::from_str_radix(word, 16).expect("a word is hexadecimal")).collect();
            match tag {
                "run" => now.runs[words[0] as usize].push(run_of(&words[1..])),
                "attempt" => now.outcome.attempts.push(words),
                "selected" => now.outcome.selected = words,
                _ => {
                    now.outcome.cutoffs = words;
                    all.push(std::mem::replace(&mut now, empty()));
                }
            }
        }
        all
    }
}
