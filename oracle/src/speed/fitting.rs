//! The races of layer 4 but for the attempts: recovered bins, shelf share, starts, validator and selection.

use crate::agree::agree;
use crate::draw::Draw;
use crate::inputs::{Cell, Input, LIMIT};
use crate::layer4::validator::{first, unaltered::rules as document};
use crate::layer4::Search;
use crate::race::{against, Times};
use crate::search::{valley, SEEDS, SHAPES};
use crate::unaltered::models::MixtureFit;
use crate::unaltered::spectrum_fitter::{self, FitAttempt};
use crate::words::{fit_words, push_bins, push_slice};
use crate::{port, rules};
use std::hint::black_box;

/// How many k-mers of the library each of the sample stands for.
const SCALE: f64 = 2.5;

fn every(cells: &[Cell]) -> Vec<&Input> {
    cells.iter().flat_map(|cell| &cell.inputs).collect()
}

/// The recovered bins, as spectrum_fitter.rs makes them.
fn sample(bins: &[u32]) -> Vec<u32> {
    let scale = rules::used(black_box(SCALE));
    bins.iter().map(|&n| rules::recovered(n, scale)).collect()
}

fn valley_and_peak(i: &Input) -> (usize, usize) {
    (valley(&i.problem) as usize, i.problem.peak as usize)
}

pub fn recover_bins(cells: &[Cell], divisor: usize) -> Times {
    let inputs = every(cells);
    let mut out = vec![0; inputs[0].problem.bins.len()];
    agree(
        "recover_bins",
        inputs.iter().map(|i| {
            let mut w = vec![SCALE.to_bits()];
            push_bins(&mut w, &i.problem.bins);
            push_bins(&mut w, &out);
            w
        }),
    );
    against(
        &inputs,
        divisor,
        |i| {
            port::recover_bins(&i.problem.bins, SCALE, &mut out);
            black_box(&out);
        },
        |i| _ = black_box(sample(&i.problem.bins)),
    )
}

pub fn empirical_shelf_share(cells: &[Cell], divisor: usize) -> Times {
    let inputs = every(cells);
    agree(
        "empirical_shelf_share",
        inputs.iter().map(|i| {
            let mut w = vec![SCALE.to_bits(), valley(&i.problem), i.problem.peak];
            push_bins(&mut w, &i.problem.bins);
            w
        }),
    );
    against(
        &inputs,
        divisor,
        |i| {
            let (valley, peak) = valley_and_peak(i);
            black_box(port::empirical_shelf_share(&i.problem.bins, SCALE, valley, peak));
        },
        |i| {
            let (valley, peak) = valley_and_peak(i);
            black_box(spectrum_fitter::empirical_shelf_share(&sample(&i.problem.bins), valley, peak));
        },
    )
}

/// The most numbers that the starts of a search have: 24 of 11.
const STARTS: usize = 264;

fn search<'a>(d: &mut Draw, i: &'a Input) -> (Search, &'a MixtureFit) {
    let (p, (valley, peak)) = (&i.problem, valley_and_peak(i));
    let share = spectrum_fitter::empirical_shelf_share(&p.bins, valley, peak);
    let shapes = SHAPES.iter().flat_map(|&(retained, concentration)| [retained, concentration]).collect();
    let (hint, seeds, out) = (d.between(1.1, 6.0), SEEDS.to_vec(), vec![0.0; STARTS]);
    (Search { hint, share, error: p.error, genome: p.genome, lent: None, seeds, shapes, out }, &i.mixture)
}

pub fn fit_starts(cell: &Cell, divisor: usize) -> Times {
    let mut d = Draw::named("speed, hints");
    let searches: Vec<(Search, &MixtureFit)> = cell.inputs.iter().map(|i| search(&mut d, i)).collect();
    agree(
        "fit_starts",
        searches.iter().map(|(s, _)| {
            let mut w = vec![s.hint.to_bits(), s.share.to_bits(), s.error.into(), s.genome.into()];
            [&s.seeds, &s.shapes, &s.out].into_iter().for_each(|entries| push_slice(&mut w, entries));
            w
        }),
    );
    let mut out = vec![0.0; STARTS];
    against(
        &searches,
        divisor,
        |(s, _)| {
            port::fit_starts(s, &mut out);
            black_box(&out);
        },
        |(s, mixture)| _ = black_box(spectrum_fitter::fit_starts(mixture, rules::hint(s.hint), s.share, &SEEDS, &SHAPES, None)),
    )
}

/// The fits that the port and the Rust's own rules accept: every rule is tried.
fn accepted(cell: &Cell) -> Vec<&Input> {
    let inputs: Vec<&Input> = cell.inputs.iter().filter(|i| verdict(i) == 0 && own_rules(i)).collect();
    assert!(!inputs.is_empty(), "no fit is valid");
    agree(
        "validate_fit",
        inputs.iter().map(|i| {
            let beside = [LIMIT.to_bits(), valley(&i.problem), i.problem.peak];
            [&fit_words(&i.fit)[..], &beside].concat()
        }),
    );
    inputs
}

fn verdict(i: &Input) -> u8 {
    let (valley, peak) = valley_and_peak(i);
    port::validate_fit(i.fit, valley, peak, LIMIT).reason
}

fn own_rules(i: &Input) -> bool {
    let (valley, peak) = valley_and_peak(i);
    spectrum_fitter::validate_fit(&i.rust_fit, valley, peak).is_none()
}

pub fn validate_fit(cell: &Cell, divisor: usize) -> Times {
    let theirs = |i: &&Input| _ = black_box(first(document(&i.rust_fit, valley(&i.problem), i.problem.peak, LIMIT)));
    against(&accepted(cell), divisor, |i| _ = black_box(verdict(i)), theirs)
}

pub fn validate_fit_own(cell: &Cell, divisor: usize) -> Times {
    against(&accepted(cell), divisor, |i| _ = black_box(verdict(i)), |i| _ = black_box(own_rules(i)))
}

fn attempts(i: &Input) -> (port::Attempt, FitAttempt) {
    let (error, genome) = (i.fit.error_model, i.fit.genome_model);
    let ours = port::Attempt {
        error_model: error,
        genome_model: genome,
        has_candidate: 1,
        candidate: i.fit,
        rejection_present: 0,
        rejection: 0,
        total_iterations: 1,
        capped_starts: 0,
    };
    let theirs = FitAttempt {
        error_model: i.rust_fit.error_model,
        genome_model: i.rust_fit.genome_model,
        candidate: Some(i.rust_fit),
        rejection: None,
        total_iterations: 1,
        capped_starts: 0,
    };
    (ours, theirs)
}

fn attempt_words(i: &Input) -> Vec<u64> {
    let before = [i.fit.error_model.into(), i.fit.genome_model.into(), 1, 0, 0, 1, 0];
    [&before[..], &fit_words(&i.fit)].concat()
}

/// An attempt of each configuration.
pub fn select_fit(cells: &[Cell], divisor: usize) -> Times {
    let most = cells.iter().map(|cell| cell.inputs.len()).min().expect("there are four configurations");
    let fours: Vec<[&Input; 4]> = (0..most).map(|i| std::array::from_fn(|of| &cells[of].inputs[i])).collect();
    agree("select_fit", fours.iter().map(|four| four.iter().flat_map(|i| attempt_words(i)).collect()));
    let fours: Vec<([port::Attempt; 4], [FitAttempt; 4])> =
        fours.iter().map(|four| (four.map(|i| attempts(i).0), four.map(|i| attempts(i).1))).collect();
    against(
        &fours,
        divisor,
        |([first, second, third, fourth], _)| _ = black_box(port::select_fit(*first, *second, *third, *fourth)),
        |(_, four)| _ = black_box(spectrum_fitter::select_fit(four)),
    )
}
