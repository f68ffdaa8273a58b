//! How near a start, read as a parameter list, comes to what it was made from: the map of models.rs, there and back.

use super::starts::Search;
use crate::draw::Draw;
use crate::port;
use crate::rules;

/// Searches for each pair of families.
const EACH: usize = 20_000;

const NAMES: [&str; 8] = [
    "dispersion",
    "tail exponent",
    "singleton probability",
    "Weibull shape",
    "repeat ratio, 1.9",
    "shelf share",
    "shelf's retained fraction",
    "shelf's concentration",
];

/// The largest relative error, and how many were read back.
#[derive(Clone, Copy, Default)]
struct Off {
    values: u64,
    most: f64,
}

impl Off {
    fn take(&mut self, made: f64, read: f64) {
        self.values += 1;
        let off = ((read - made) / made).abs();
        self.most = if off > self.most || off.is_nan() { off } else { self.most };
    }
}

fn read_back(s: &Search, offs: &mut [Off; 8]) {
    let mut out = s.out.clone();
    let answer = port::fit_starts(s, &mut out);
    assert_eq!(answer.number, 0, "an ordinary search is refused");
    let length = rules::list_length(s.error == 0, s.genome != 0);
    let mut starts = out[..answer.items].chunks_exact(length);
    let [pareto, weibull] = s.lent.as_ref().expect("its tables are lent");
    let table = if s.error == 0 { weibull } else { pareto };
    for seed in s.seeds.iter().copied().chain([rules::hint(s.hint)]) {
        for row in table.chunks_exact(3) {
            let shapes: &[f64] = if s.genome == 0 { &[0.0; 2] } else { &s.shapes };
            for shape in shapes.chunks_exact(2) {
                let answer = port::params_from(s.error, s.genome, 20, starts.next().expect("a start"));
                assert_eq!(answer.number, 0, "a start is no parameter list");
                let p = answer.params;
                offs[0].take(1.0 + (seed - 1.0).max(1e-3), p.dispersion);
                offs[1].take(row[0], p.error_params.tail_exponent);
                offs[2].take(row[1], p.error_params.singleton_probability);
                if s.error == 0 {
                    offs[3].take(row[2], p.error_params.weibull_shape);
                }
                offs[4].take(1.9, p.repeat_ratio);
                if s.genome != 0 {
                    offs[5].take(s.share, p.shelf.share);
                    offs[6].take(shape[0], p.shelf.alpha / (p.shelf.alpha + p.shelf.beta));
                    offs[7].take(shape[1], p.shelf.alpha + p.shelf.beta);
                }
            }
        }
    }
}

pub fn table() -> String {
    let mut d = Draw::named("starts read back");
    let mut offs = [Off::default(); 8];
    for (error, genome) in [(0, 0), (0, 1), (1, 0), (1, 1)] {
        for _ in 0..EACH {
            read_back(&Search::of(&mut d, error, genome, true), &mut offs);
        }
    }
    let head = String::from("| what is read back | values | max relative error |\n|---|---|---|\n");
    head + &NAMES.iter().zip(offs).map(|(name, off)| format!("| {name} | {} | {:.1e} |\n", off.values, off.most)).collect::<String>()
}
