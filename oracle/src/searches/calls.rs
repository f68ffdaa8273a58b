//! The calls of a search: each alone, and whole searches through all three.

pub mod asked;
mod beginnings;
pub mod ends;
pub mod lent;
pub mod port;
mod problems;
mod refusals;
mod reported;
mod reports;
mod sides;
mod turns;
mod whole;

use crate::call::{Answer, Call, Kind, Kind::*, Own, Told};
use crate::draw::Draw;

const SEARCH: &[(&str, Kind)] = &[("search", Other)];

/// The number and how many runs; behind them what stands in the lent slices.
const ANSWER: Answer = Answer::Given { whole: 1, floats: 0 };

/// How many searches, and how many inputs of each call alone, there must be.
pub const SEARCHES: u64 = 2_600;
const BEGINNINGS: u64 = 6_000;
const TURNS: u64 = 12_000;
const REPORTS: u64 = 20_000;

type Program = fn(&[u64]) -> Vec<u64>;

fn call(
    number: u64,
    name: &'static str,
    inputs: u64,
    ordinary: fn(&mut Draw) -> Vec<u64>,
    [ours, theirs]: [Program; 2],
    own: Vec<Own>,
) -> Call {
    let (arguments, answer, unaltered, told) = (SEARCH, ANSWER, None, Told::default());
    Call { number, name, arguments, answer, inputs, ordinary, own, ours, theirs, unaltered, told, open: |_| false }
}

pub fn calls() -> Vec<Call> {
    use sides::*;
    let both = |first: Vec<Own>, second: Vec<Own>| first.into_iter().chain(second).collect();
    let ordinary = |d: &mut Draw| {
        let f = problems::families(d);
        let p = problems::either(d, f);
        problems::search(d, p).words()
    };
    let begun = both(beginnings::strata(), refusals::strata(refusals::BEGINNING));
    let gone_on = both(turns::strata(), refusals::strata(refusals::GOING_ON));
    vec![
        call(110, "begin_searches", BEGINNINGS, beginnings::ordinary, [port_begins, linked_begins], begun),
        call(111, "run_searches", TURNS, |d| turns::ordinary(d).words(), [port_goes_on, linked_goes_on], gone_on),
        call(112, "report_searches", REPORTS, reports::ordinary, [port_reports, linked_reports], reports::strata()),
        call(113, "all three, one after another", SEARCHES, ordinary, [port_searches, linked_searches], whole::strata()),
    ]
}
