//! Replays the rows of the oracle's answers, `crates/replay/stdin`, whose call this crate has.
//!
//! A row is a line of hexadecimal words: the call's number, its arguments, its answer. A float stands by its bits, a slice as its
//! length and its entries. Beside a refusal's number every word of an answer is 0.

use fogatise::*;
use std::collections::BTreeMap;

mod words;
use words::{Answer, Row};

/// Whether the call is one of this crate's. Its arguments are then read, and its answer stands in `a`.
fn called(call: u64, r: &mut Row, a: &mut Answer) -> bool {
    match call {
        1 => a.real(exp(r.float())),
        2 => a.real(ln(r.float())),
        3 => a.real(expm1(r.float())),
        4 => a.real(lgamma(r.float())),
        38 => a.real(ln_dnbinom(r.float(), r.float(), r.float())),
        41 => a.whole(discrete_nb_mode(r.float(), r.float())),
        42 => a.number(log_nb_mass(r.float(), r.float(), r.size())),
        44 => a.real(shelf_trials(r.float())),
        45 => a.real(ln_dbetabinom(r.float(), r.float(), r.float(), r.float())),
        46 => shelf_table(r, a),
        47 => a.real(ln_single_copy(r.float(), r.float(), r.float(), r.shelf_part())),
        49 => a.real(mix_single_copy(r.float(), r.float(), r.shelf_part(), &r.floats())),
        50 => single_mass(r, a),
        64 => cost(r, a),
        65 => unpack(r, a),
        66 => a.real(r.fit().component_total_ratio()),
        67 => a.real(r.fit().mode_roundtrip_error()),
        68 => a.whole(r.fit().primary_mode()),
        69 => a.whole(r.fit().repeat_mode()),
        70 => a.count(r.fit().error_mode()),
        71 => heights(r, a),
        85 => a.cutoff(r.fit().hole_cutoff(r.float())),
        86 => sure(r, a),
        87 => a.cutoff(r.fit().crossover()),
        88 => a.size(r.error().parameter_count()),
        89 => a.size(r.genome().extra_parameters()),
        90 => a.size(r.configuration().list_length()),
        91 => a.cutoff(r.fit().error_floor_cutoff().map(Some)),
        96 => recovered(r, a),
        97 => share(r, a),
        98 => tables(r, a),
        100 => starts(r, a),
        101 => starts_lent(r, a),
        102 => verdict(r, a),
        103 => a.whole(r.attempt().is_valid().into()),
        104 => a.selected(select_fit(&[r.attempt(), r.attempt(), r.attempt(), r.attempt()])),
        _ => return false,
    }
    true
}

/// The calls of `called`, each of which has rows.
const CALLS: [u64; 36] = [
    1, 2, 3, 4, 38, 41, 42, 44, 45, 46, 47, 49, 50, 64, 65, 66, 67, 68, 69, 70, 71, 85, 86, 87, 88, 89, 90, 91, 96, 97, 98, 100, 101, 102,
    103, 104,
];

#[test]
fn every_row_comes_back() {
    let place = concat!(env!("CARGO_MANIFEST_DIR"), "/../../crates/replay/stdin");
    let text = std::fs::read_to_string(place).unwrap_or_else(|why| panic!("{place}: {why}"));
    let mut rows = BTreeMap::new();
    for line in text.lines().filter(|line| !line.starts_with('#')) {
        let mut row = Row::new(line);
        let (call, mut answer) = (row.word(), Answer::default());
        if called(call, &mut row, &mut answer) {
            assert!(answer.is(row.rest()), "another answer: {line}");
            *rows.entry(call).or_insert(0) += 1;
        }
    }
    assert_eq!(rows.keys().copied().collect::<Vec<u64>>(), CALLS);
    println!("{} rows through the wrapper", rows.values().sum::<u32>());
}

fn shelf_table(r: &mut Row, a: &mut Answer) {
    let (mean, shelf, top, mut table) = (r.float(), r.shelf(), r.size(), r.floats());
    a.written(shelf_log_table(mean, shelf, top, &mut table));
    a.reals(&table);
}

fn single_mass(r: &mut Row, a: &mut Answer) {
    let (mean, dispersion, shelf, top) = (r.float(), r.float(), r.shelf_part(), r.size());
    a.number(single_copy_log_mass(mean, dispersion, shelf, &r.floats(), top));
}

fn cost(r: &mut Row, a: &mut Answer) {
    let (scale, window_end, peak, configuration) = (r.float(), r.size(), r.size(), r.configuration());
    let (theta, bins, mut table) = (r.floats(), r.bins(), r.floats());
    a.number(Spectrum { bins: &bins, scale, window_end, valley: 0, peak }.cost(configuration, &theta, &mut table));
    a.reals(&table);
}

fn unpack(r: &mut Row, a: &mut Answer) {
    let (scale, cost, iterations) = (r.float(), r.float(), r.word());
    let (window_end, peak, configuration) = (r.size(), r.size(), r.configuration());
    let (theta, bins, mut table) = (r.floats(), r.bins(), r.floats());
    let spectrum = Spectrum { bins: &bins, scale, window_end, valley: 0, peak };
    a.fit_answer(spectrum.unpack(configuration, &theta, cost, iterations, &mut table));
    a.reals(&table);
}

fn heights(r: &mut Row, a: &mut Answer) {
    let answer = r.fit().component_heights(r.size());
    a.refusal(answer.as_ref().err());
    let h = answer.unwrap_or(Heights { error: 0.0, single: 0.0, repeat: 0.0 });
    a.reals(&[h.error, h.single, h.repeat]);
}

fn sure(r: &mut Row, a: &mut Answer) {
    let answer = r.fit().hole_cutoff_sure(r.float());
    a.refusal(answer.as_ref().err());
    let (walk, sure, cutoff) = match answer.unwrap_or(SureCutoff::NoWalk) {
        SureCutoff::Sure(cutoff) => (1, 1, cutoff),
        SureCutoff::NotSure(cutoff) => (1, 0, cutoff),
        SureCutoff::NoWalk => (0, 0, None),
    };
    a.whole(walk);
    a.whole(sure);
    a.cutoff_part(cutoff);
}

fn recovered(r: &mut Row, a: &mut Answer) {
    let (scale, bins, mut out) = (r.float(), r.bins(), r.bins());
    a.written(Spectrum { bins: &bins, scale, window_end: 0, valley: 0, peak: 0 }.recover_bins(&mut out));
    out.iter().for_each(|&bin| a.whole(bin.into()));
}

fn share(r: &mut Row, a: &mut Answer) {
    let (scale, valley, peak, bins) = (r.float(), r.size(), r.size(), r.bins());
    a.number(Spectrum { bins: &bins, scale, window_end: 0, valley, peak }.empirical_shelf_share());
}

fn tables(r: &mut Row, a: &mut Answer) {
    let (pareto, weibull) = (r.floats(), r.floats());
    a.refusal(StartTables { pareto: &pareto, weibull: &weibull }.check().as_ref().err());
}

fn starts(r: &mut Row, a: &mut Answer) {
    let (hint, share, configuration) = (r.float(), r.float(), r.configuration());
    let (dispersions, shapes, mut out) = (r.floats(), r.floats(), r.floats());
    a.written(fit_starts(configuration, &Seeds { dispersions: &dispersions, hint, share, shapes: &shapes }, &mut out));
    a.reals(&out);
}

fn starts_lent(r: &mut Row, a: &mut Answer) {
    let (hint, share, configuration) = (r.float(), r.float(), r.configuration());
    let (pareto, weibull) = (r.floats(), r.floats());
    let (dispersions, shapes, mut out) = (r.floats(), r.floats(), r.floats());
    let tables = StartTables { pareto: &pareto, weibull: &weibull };
    a.written(fit_starts_lent(configuration, &tables, &Seeds { dispersions: &dispersions, hint, share, shapes: &shapes }, &mut out));
    a.reals(&out);
}

fn verdict(r: &mut Row, a: &mut Answer) {
    let (fit, mass_limit, valley, peak) = (r.fit(), r.float(), r.size(), r.size());
    let answer = fit.validate(valley, peak, mass_limit);
    a.refusal(answer.as_ref().err());
    a.whole(answer.ok().flatten().map_or(0, FitRejection::number).into());
}
