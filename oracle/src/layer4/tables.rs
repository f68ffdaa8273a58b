//! The two lent tables of error starts: which refuses. That the right one is taken shows in the starts.

use super::call;
use crate::call::{own, Answer, Call, Kind, Kind::*, Own};
use crate::draw::Draw;
use crate::words::{push_slice, slice};
use crate::{port, rules};

const TABLES: &[(&str, Kind)] = &[("pareto", Other), ("weibull", Other)];

/// A table of any numbers.
pub fn table(d: &mut Draw, entries: u64) -> Vec<f64> {
    (0..entries).map(|_| d.any()).collect()
}

/// One to four rows.
pub fn rows(d: &mut Draw) -> u64 {
    3 * (1 + d.below(4))
}

/// No rows at all, or no whole number of them.
pub fn no_rows(d: &mut Draw) -> u64 {
    match d.below(3) {
        0 => 0,
        1 => 3 * d.below(5) + 1,
        _ => 3 * d.below(5) + 2,
    }
}

fn two(d: &mut Draw, pareto: fn(&mut Draw) -> u64, weibull: fn(&mut Draw) -> u64) -> Vec<u64> {
    let (pareto, weibull) = (pareto(d), weibull(d));
    let mut w = vec![];
    push_slice(&mut w, &table(d, pareto));
    push_slice(&mut w, &table(d, weibull));
    w
}

fn lengths(w: &[u64]) -> [usize; 2] {
    let pareto = w[0] as usize;
    [pareto, w[1 + pareto] as usize]
}

fn wrong(name: &str, pareto: fn(&mut Draw) -> u64, weibull: fn(&mut Draw) -> u64, of: [bool; 2]) -> Own {
    own(name, 100_000, move |d| two(d, pareto, weibull), move |w| lengths(w).map(rules::not_rows) == of)
}

pub fn calls() -> Vec<Call> {
    vec![Call {
        own: vec![
            wrong("refusal 7 for the Pareto table", no_rows, rows, [true, false]),
            wrong("refusal 7 for the Weibull table", rows, no_rows, [false, true]),
            wrong("refusal 7 for both", no_rows, no_rows, [true, true]),
        ],
        ..call(
            98,
            "start_tables_refusal",
            TABLES,
            Answer::Given { whole: 0, floats: 0 },
            |d| two(d, rows, rows),
            |w| {
                let pareto = slice(w, 0);
                vec![port::start_tables_refusal(&pareto, &slice(w, 1 + pareto.len())).into()]
            },
            |w| vec![if lengths(w).into_iter().any(rules::not_rows) { 7 } else { 0 }],
        )
    }]
}
