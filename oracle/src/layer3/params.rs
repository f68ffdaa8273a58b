//! Families, and the parameters of a list.

use super::rust::{linked as side, unaltered as plain, PARAMS, PARAMS_FLOATS, PARAMS_WHOLES};
use super::{call, Problem};
use crate::call::{ordinary_own, own, Answer, Call, Kind, Kind::*, Own};
use crate::draw::Draw;
use crate::linked::models::{ErrorModel, GenomeModel};
use crate::words::{params_words, push_slice, slice};
use crate::{port, rules};

const ERROR: &[(&str, Kind)] = &[("error", Other)];
const GENOME: &[(&str, Kind)] = &[("genome", Other)];
const BOTH: &[(&str, Kind)] = &[("error", Other), ("genome", Other)];
const LIST: &[(&str, Kind)] = &[("peak", Other), ("error", Other), ("genome", Other), ("theta", Other)];
const ANSWER: Answer = Answer::Given { whole: PARAMS_WHOLES, floats: PARAMS_FLOATS };

// ---- families

fn byte(d: &mut Draw) -> u64 {
    if d.one_in(2) {
        d.below(2)
    } else {
        d.below(256)
    }
}

fn error_model(byte: u64) -> ErrorModel {
    if byte == 0 {
        ErrorModel::FreeSingletonWeibull
    } else {
        ErrorModel::SingletonPareto
    }
}

fn genome_model(byte: u64) -> GenomeModel {
    if byte == 0 {
        GenomeModel::NegativeBinomial
    } else {
        GenomeModel::ShelfNegativeBinomial
    }
}

fn families() -> Vec<Call> {
    vec![
        call(
            88,
            "parameter_count",
            ERROR,
            Answer::Whole,
            |d| vec![byte(d)],
            |w| vec![port::parameter_count(w[0] as u8) as u64],
            |w| vec![error_model(w[0]).parameter_count() as u64],
        ),
        call(
            89,
            "extra_parameters",
            GENOME,
            Answer::Whole,
            |d| vec![byte(d)],
            |w| vec![port::extra_parameters(w[0] as u8) as u64],
            |w| vec![genome_model(w[0]).extra_parameters() as u64],
        ),
        call(
            90,
            "list_length",
            BOTH,
            Answer::Whole,
            |d| vec![byte(d), byte(d)],
            |w| vec![port::list_length(w[0] as u8, w[1] as u8) as u64],
            |w| vec![rules::list_length(w[0] == 0, w[1] != 0) as u64],
        ),
    ]
}

// ---- lists: peak, families, entries

fn list_words(p: &Problem, peak: u64) -> Vec<u64> {
    let mut w = vec![peak, p.error.into(), p.genome.into()];
    push_slice(&mut w, &p.theta);
    w
}

fn from(d: &mut Draw) -> Vec<u64> {
    let p = Problem::ordinary(d);
    list_words(&p, p.peak)
}

fn problem(w: &[u64], peak: u64) -> Problem {
    Problem { scale: 1.0, window_end: 1, peak, error: w[1] as u8, genome: w[2] as u8, theta: slice(w, 3), bins: vec![1, 1], table: vec![] }
}

/// The list's own entries put, one at least.
fn entries_put(d: &mut Draw, base: fn(&mut Draw) -> Vec<u64>, by: fn(&mut Draw) -> f64) -> Vec<u64> {
    let mut w = base(d);
    let one = 4 + d.below(w[3]) as usize;
    for i in 4..w.len() {
        if i == one || d.one_in(4) {
            w[i] = by(d).to_bits();
        }
    }
    w
}

/// Entry i, where the families have one.
fn entry_put(d: &mut Draw, base: fn(&mut Draw) -> Vec<u64>, i: usize, by: fn(&mut Draw) -> f64) -> Vec<u64> {
    let mut w = base(d);
    while w[3] as usize <= i {
        w = base(d);
    }
    w[4 + i] = by(d).to_bits();
    w
}

fn lists(base: fn(&mut Draw) -> Vec<u64>) -> Vec<Own> {
    let mut strata = vec![
        own("list of any bits", 50_000, move |d| entries_put(d, base, Draw::any), |_| true),
        own("list of extreme numbers", 50_000, move |d| entries_put(d, base, Draw::extreme), |_| true),
        own("list far out, -800 to 800", 50_000, move |d| entries_put(d, base, |d| d.between(-800.0, 800.0)), |_| true),
    ];
    for (error, genome, name) in [(0, 0, "Weibull"), (0, 1, "Weibull with shelf"), (1, 0, "Pareto"), (1, 1, "Pareto with shelf")] {
        strata.push(ordinary_own(
            name,
            20_000,
            move |d| {
                let w = base(d);
                let p = Problem::of(d, error, genome);
                list_words(&p, w[0])
            },
            move |w| (w[1], w[2]) == (error.into(), genome.into()),
        ));
    }
    for i in 0..11 {
        let is = move |w: &[u64], test: fn(f64) -> bool| test(f64::from_bits(w[4 + i]));
        strata.push(own(&format!("list entry {i} a NaN"), 5_000, move |d| entry_put(d, base, i, Draw::nan), move |w| is(w, f64::is_nan)));
        strata.push(own(
            &format!("list entry {i} infinite"),
            5_000,
            move |d| entry_put(d, base, i, Draw::infinity),
            move |w| is(w, f64::is_infinite),
        ));
    }
    strata
}

fn refused(numbers: &'static [u64]) -> Own {
    let name = numbers.iter().map(u64::to_string).collect::<Vec<_>>().join(" and ");
    let draw = move |d: &mut Draw| {
        let mut p = Problem::ordinary(d);
        for &number in numbers {
            match number {
                1 => p.peak = d.below(2),
                2 => p.peak = d.window_too_far(),
                _ => p.refused(d, 7),
            }
        }
        list_words(&p, p.peak)
    };
    own(&format!("refusal {name}"), 20_000, draw, move |w| {
        let p = problem(w, w[0]);
        rules::of_a_list(&p).map(|(number, applies)| applies == numbers.contains(&number)) == [true; 3]
    })
}

fn linked_from(w: &[u64]) -> Vec<u64> {
    let p = problem(w, w[0]);
    match rules::first(&rules::of_a_list(&p)) {
        Some(number) => [vec![number], vec![0; PARAMS]].concat(),
        None => [vec![0], side::params_words(&side::mixture(&p).params(&p.theta))].concat(),
    }
}

pub fn calls() -> Vec<Call> {
    let refusals = vec![refused(&[1]), refused(&[2]), refused(&[7]), refused(&[1, 7]), refused(&[2, 7])];
    let mut calls = families();
    calls.push(Call {
        own: [lists(from), refusals].into_iter().flatten().collect(),
        unaltered: Some(|w| {
            let p = problem(w, w[0]);
            [vec![0], plain::params_words(&plain::mixture(&p).params(&p.theta))].concat()
        }),
        ..call(
            92,
            "params_from",
            LIST,
            ANSWER,
            from,
            |w| {
                let answer = port::params_from(w[1] as u8, w[2] as u8, w[0] as usize, &slice(w, 3));
                [vec![answer.number.into()], params_words(&answer.params)].concat()
            },
            linked_from,
        )
    });
    calls
}
