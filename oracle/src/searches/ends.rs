//! How the runs of the whole searches ended, and what their iterations did: a row for each pair of families.

use super::asked::Asked;
use crate::simplex::{Move, State};
use std::cell::RefCell;

const MOVES: [(Move, &str); 7] = [
    (Move::Reflected, "reflected"),
    (Move::Expanded, "expanded"),
    (Move::NotExpanded, "expansion no cheaper"),
    (Move::Outer, "outer point"),
    (Move::Inner, "inner point"),
    (Move::ShrunkOuter, "shrunk, outer point tried"),
    (Move::ShrunkInner, "shrunk, inner point tried"),
];

/// How often each came, by its place in the list of moves.
pub type Moves = [u64; MOVES.len()];

const FAMILIES: [&str; 4] = ["Weibull", "Weibull with shelf", "Pareto", "Pareto with shelf"];

#[derive(Clone, Copy, Default)]
struct Ends {
    runs: u64,
    converged: u64,
    /// Stopped at a cost that is not above 0.
    nothing: u64,
    capped: u64,
    limited: u64,
    iterations: u64,
    moves: Moves,
}

thread_local! {
    static ENDS: RefCell<[Ends; 4]> = RefCell::default();
}

pub fn count(a: &Asked, runs: &[State], moves: Moves) {
    let family = 2 * usize::from(!a.problem.weibull()) + usize::from(a.problem.with_shelf());
    ENDS.with_borrow_mut(|all| {
        let ends = &mut all[family];
        for run in runs {
            let ended = match (run.converged(), run.capped(a.cap()), run.stopped) {
                (true, ..) => &mut ends.converged,
                (_, true, _) => &mut ends.capped,
                (.., true) => &mut ends.nothing,
                _ => &mut ends.limited,
            };
            *ended += 1;
            ends.runs += 1;
            ends.iterations += run.iterations;
        }
        ends.moves.iter_mut().zip(moves).for_each(|(all, n)| *all += n);
    });
}

pub fn runs() -> u64 {
    ENDS.with_borrow(|all| all.iter().map(|ends| ends.runs).sum())
}

/// The moves that no run made.
pub fn missing() -> Vec<&'static str> {
    ENDS.with_borrow(|all| {
        let never = |(how, name): &(Move, &'static str)| all.iter().all(|ends| ends.moves[*how as usize] == 0).then_some(*name);
        MOVES.iter().filter_map(never).collect()
    })
}

pub fn table() -> String {
    let moves: Vec<&str> = MOVES.iter().map(|(_, name)| *name).collect();
    let head = ["families", "runs", "converged", "stopped, cost not above 0", "capped", "the limit alone", "iterations"];
    let head = [&head[..], &moves].concat();
    let mut text = format!("| {} |\n|{}\n", head.join(" | "), "---|".repeat(head.len()));
    ENDS.with_borrow(|all| {
        for (name, e) in FAMILIES.iter().zip(all) {
            let first = [e.runs, e.converged, e.nothing, e.capped, e.limited, e.iterations];
            let cells: Vec<String> = first.iter().chain(MOVES.map(|(how, _)| &e.moves[how as usize])).map(u64::to_string).collect();
            text += &format!("| {name} | {} |\n", cells.join(" | "));
        }
    });
    text
}
