//! How often a cost is +infinity: the port, the Rust with the port's routines, and the Rust as it is; and why.

use super::costs::{stop, Stop};
use super::rust::{linked, unaltered};
use super::Problem;
use crate::argmin::CostFunction;
use crate::draw::Draw;
use crate::port;

/// A dispersion, and the logarithm of what it has above 1.
const DISPERSIONS: [(&str, f64); 9] = [
    ("1 + 1e-8", -18.420680743952367),
    ("1 + 1e-6", -13.815510557964274),
    ("1 + 1e-4", -9.210340371976182),
    ("1.01", -4.605170185988091),
    ("1.1", -2.302585092994046),
    ("1.5", -0.6931471805599453),
    ("2", 0.0),
    ("3", 0.6931471805599453),
    ("6", 1.6094379124341003),
];

/// Problems for each dispersion.
const EACH: usize = 20_000;

/// A spectrum with a peak of 10 to 60 and a window two to four times as far.
fn problem(d: &mut Draw, log: f64) -> Problem {
    let peak = 10 + d.below(51);
    let end = peak * 2 + d.below(2 * peak);
    let (error, genome) = (d.family(), d.family());
    let mut p = Problem::to(d, error, genome, end);
    p.peak = peak;
    p.spectrum(d, end);
    p.theta[3] = log;
    p
}

fn percent(n: usize) -> f64 {
    100.0 * n as f64 / EACH as f64
}

/// The table; and a line for each dispersion at which two of the three are a percent or more apart.
pub fn table() -> (String, Vec<String>) {
    let mut text = String::from("| dispersion | problems | the port | the Rust, linked | the Rust, unaltered | by a window mass |\n|---|---|---|---|---|---|\n");
    let mut faults = Vec::new();
    for (name, log) in DISPERSIONS {
        let mut d = Draw::named(&format!("usability, {name}"));
        let mut infinite = [0; 4];
        for _ in 0..EACH {
            let p = problem(&mut d, log);
            let mut table = p.table.clone();
            let answer = port::cost(&p, &mut table);
            assert_eq!(answer.number, 0, "an ordinary problem is refused");
            let theirs = linked::mixture(&p).cost(&p.theta).expect("a cost is never an error");
            let plain = unaltered::mixture(&p).cost(&p.theta).expect("a cost is never an error");
            for (n, cost) in infinite.iter_mut().zip([answer.value, theirs, plain]) {
                *n += usize::from(cost == f64::INFINITY);
            }
            infinite[3] += usize::from(stop(&p) == Stop::Masses);
        }
        let [ours, theirs, plain, masses] = infinite.map(percent);
        text += &format!("| {name} | {EACH} | {ours:.2} % | {theirs:.2} % | {plain:.2} % | {masses:.2} % |\n");
        if (ours - theirs).abs() >= 1.0 || (ours - plain).abs() >= 1.0 {
            faults.push(format!("usability at {name}: {ours} %, {theirs} % and {plain} % are infinite"));
        }
    }
    (text, faults)
}
