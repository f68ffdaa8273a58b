//! The races of layer 3: the calls of a search and of its cutoffs.

use crate::agree::agree;
use crate::argmin::CostFunction;
use crate::heights::component_heights_to;
use crate::inputs::{Cell, Input};
use crate::race::{against, Times};
use crate::words::{fit_words, push_slice};
use crate::{cutoffs, port, prepared};
use std::hint::black_box;

fn room(cell: &Cell) -> usize {
    cell.window_end as usize + 1
}

fn rust_cost(i: &Input) {
    black_box(i.mixture.cost(&i.problem.theta).expect("a cost is never an error"));
}

pub fn cost(cell: &Cell, divisor: usize) -> Times {
    let mut table = vec![0.0; room(cell)];
    against(&cell.inputs, divisor, |i| _ = black_box(port::cost(&i.problem, &mut table)), rust_cost)
}

pub fn cost_prepared(cell: &Cell, divisor: usize) -> Times {
    let ready = prepared::window(cell.window_end);
    let mut table = vec![0.0; room(cell)];
    for i in &cell.inputs {
        let prepared = prepared::cost(&i.problem, &ready, &mut table);
        assert!(prepared.number == 0 && prepared.value.to_bits() == i.cost.to_bits(), "the prepared cost differs");
    }
    against(&cell.inputs, divisor, |i| _ = black_box(prepared::cost(&i.problem, &ready, &mut table)), rust_cost)
}

pub fn unpack(cell: &Cell, divisor: usize) -> Times {
    let mut table = vec![0.0; room(cell)];
    against(
        &cell.inputs,
        divisor,
        |i| _ = black_box(port::unpack(&i.problem, i.cost, 1, &mut table)),
        |i| _ = black_box(i.mixture.unpack(&i.problem.theta, i.cost, 1)),
    )
}

/// The inputs of a call of a fit, each with what `beside` has behind the fit.
fn fits_agree(call: &str, cell: &Cell, beside: impl Fn(&Input) -> Vec<u64>) {
    agree(call, cell.inputs.iter().map(|i| [fit_words(&i.fit), beside(i)].concat()));
}

pub fn error_mode(cell: &Cell, divisor: usize) -> Times {
    fits_agree("error_mode", cell, |_| vec![]);
    against(&cell.inputs, divisor, |i| _ = black_box(port::error_mode(i.fit)), |i| _ = black_box(i.rust_fit.error_mode()))
}

/// The heights of the counts 1 to the window end, three after three.
fn rust_heights(i: &Input, heights: &mut [f64]) {
    for (count, three) in (1..).zip(heights.chunks_exact_mut(3)) {
        three.copy_from_slice(&i.rust_fit.component_heights(count));
    }
}

pub fn heights(cell: &Cell, divisor: usize) -> Times {
    let mut ours = vec![0.0; 3 * cell.window_end as usize];
    let mut theirs = ours.clone();
    fits_agree("component_heights_to", cell, |i| {
        let mut w = vec![i.problem.window_end];
        push_slice(&mut w, &ours);
        w
    });
    against(
        &cell.inputs,
        divisor,
        |i| {
            component_heights_to(i.fit, i.fit.fit_window_end, &mut ours);
            black_box(&ours);
        },
        |i| {
            rust_heights(i, &mut theirs);
            black_box(&theirs);
        },
    )
}

pub fn hole_cutoff(cell: &Cell, divisor: usize) -> Times {
    fits_agree("hole_cutoff", cell, |i| vec![i.budget.to_bits()]);
    against(
        &cell.inputs,
        divisor,
        |i| _ = black_box(cutoffs::hole_cutoff(i.fit, i.budget)),
        |i| _ = black_box(i.rust_fit.hole_cutoff(i.budget)),
    )
}

pub fn hole_cutoff_sure(cell: &Cell, divisor: usize) -> Times {
    fits_agree("hole_cutoff_sure", cell, |i| vec![i.budget.to_bits()]);
    against(
        &cell.inputs,
        divisor,
        |i| _ = black_box(cutoffs::hole_cutoff_sure(i.fit, i.budget)),
        |i| _ = black_box(cutoffs::hole_cutoff(i.fit, i.budget)),
    )
}

pub fn crossover(cell: &Cell, divisor: usize) -> Times {
    fits_agree("crossover", cell, |_| vec![]);
    against(&cell.inputs, divisor, |i| _ = black_box(cutoffs::crossover(i.fit)), |i| _ = black_box(i.rust_fit.crossover()))
}

pub fn error_floor_cutoff(cell: &Cell, divisor: usize) -> Times {
    fits_agree("error_floor_cutoff", cell, |_| vec![]);
    against(
        &cell.inputs,
        divisor,
        |i| _ = black_box(cutoffs::error_floor_cutoff(i.fit)),
        |i| _ = black_box(i.rust_fit.error_floor_cutoff()),
    )
}
