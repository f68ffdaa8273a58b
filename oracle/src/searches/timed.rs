//! The time of a sample's whole search: every start of the four configurations, by the port's search and by the same rule over the
//! unaltered Rust's cost, by turns.

use crate::layer3::Problem;
use crate::race::thread_time;
use crate::sample::{cap, Sample, CONFIGURATIONS};
use crate::sides::unaltered;
use crate::simplex::{self, Run};
use crate::{port_side, rules};
use std::hint::black_box;

const TURNS: usize = 5;
const BAR: f64 = 0.65;
const GOAL: f64 = 0.5;

/// The starts of the four configurations, each as a problem whose list has them.
fn problems(s: &Sample) -> Vec<Problem> {
    CONFIGURATIONS.map(|f| Problem { theta: port_side::starts(s, f), ..s.problem(f) }).into()
}

fn ours(problems: &[Problem]) -> Vec<Run> {
    problems.iter().flat_map(|p| port_side::runs(black_box(p))).collect()
}

/// The mixture is made once for a configuration, as the original does.
fn theirs(s: &Sample, problems: &[Problem]) -> Vec<Run> {
    let mut runs = vec![];
    for (p, &families) in problems.iter().zip(&CONFIGURATIONS) {
        let mut cost = unaltered::cost(s, families);
        let length = rules::list_length(p.weibull(), p.with_shelf());
        runs.extend(p.theta.chunks_exact(length).map(|start| simplex::run(black_box(start), cap(families.1), &mut cost)));
    }
    runs
}

/// The runs, and the seconds that they took.
fn timed(search: impl FnOnce() -> Vec<Run>) -> (Vec<Run>, f64) {
    let start = thread_time();
    let runs = black_box(search());
    (runs, (thread_time() - start) / 1e9)
}

fn sorted(mut values: Vec<f64>) -> Vec<f64> {
    values.sort_by(f64::total_cmp);
    values
}

fn iterations(runs: &[Run]) -> u64 {
    runs.iter().map(|run| run.iterations).sum()
}

/// A line of the table; whether its bar is met.
fn line(path: &str) -> bool {
    let s = Sample::read(path);
    let problems = problems(&s);
    let (mut seconds, mut counted) = ([vec![], vec![]], [0; 2]);
    for turn in 0..TURNS {
        for side in [turn % 2, 1 - turn % 2] {
            let (runs, time) = if side == 0 { timed(|| ours(&problems)) } else { timed(|| theirs(&s, &problems)) };
            seconds[side].push(time);
            counted[side] = iterations(&runs);
        }
    }
    let ratios = sorted(seconds[0].iter().zip(&seconds[1]).map(|(a, b)| a / b).collect());
    let [a, b] = seconds.map(|times| sorted(times)[TURNS / 2]);
    let (ratio, each) = (ratios[TURNS / 2], [a / counted[0] as f64, b / counted[1] as f64].map(|time| 1e6 * time));
    let (met, goal) = (ratio <= BAR, ratio <= GOAL);
    let name = path.rsplit('/').next().unwrap_or(path).trim_end_matches(".histogram");
    println!(
        "| {name} | {} | {a:.3} | {} | {:.2} | {b:.3} | {} | {:.2} | {ratio:.3} ({:.3}–{:.3}) | {:.3} | {BAR} {}, goal {GOAL} {} |",
        s.window_end,
        counted[0],
        each[0],
        counted[1],
        each[1],
        ratios[0],
        ratios[TURNS - 1],
        each[0] / each[1],
        if met { "met" } else { "**missed**" },
        if goal { "met" } else { "not met" },
    );
    met
}

const HEAD: &str =
    "Seconds of thread time for the whole search of a sample, all starts of the four configurations to their ends: the port's \
three calls, and the same rule in Rust over the unaltered cost, from the same starts. Medians of the turns, the two one after the other, \
the first of them by turns, and of their ratios (least–largest). The two costs differ in their last bits, so the two searches part and \
do not make the same number of iterations; the ratio of an iteration's time stands beside that of the whole.";

/// Whether every bar is met.
pub fn page(paths: &[&str]) -> bool {
    println!("{HEAD} {TURNS} turns.\n");
    let ours = "ours, s | iterations | µs an iteration";
    let theirs = "Rust, s | iterations | µs an iteration";
    println!("| sample | window end | {ours} | {theirs} | ratio | of an iteration | bar |\n|{}", "---|".repeat(11));
    let met: Vec<bool> = paths.iter().map(|path| line(path)).collect();
    met.into_iter().all(|met| met)
}
