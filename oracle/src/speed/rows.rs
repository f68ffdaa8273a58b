//! The calls that are raced, and their bars.

use crate::inputs::Cell;
use crate::race::Times;
use crate::{fitting, runs, searching};

/// The window ends of every call; and those by which the growth of a cost is seen.
const ENDS: &[u64] = &[150, 600, 2000];
const GROWTH: &[u64] = &[150, 600, 2000, 6000, 20000];
const MIDDLE: &[u64] = &[600];

/// A call of each configuration, or one in which the configuration has no part: it gets the inputs of all four.
pub enum Race {
    Each(fn(&Cell, usize) -> Times),
    All(fn(&[Cell], usize) -> Times),
}

pub struct Row {
    pub call: &'static str,
    /// Which of a call's inputs.
    pub case: &'static str,
    /// What the second of the two is, and what both are asked for.
    pub other: &'static str,
    pub asked: &'static str,
    pub ends: &'static [u64],
    /// Whether the call reads a window.
    pub windowed: bool,
    /// The largest ratio that is allowed at a window end, and the one that is aimed at.
    pub bar: fn(u64) -> Option<f64>,
    pub goal: fn(u64) -> Option<f64>,
    pub race: Race,
}

impl Row {
    pub fn name(&self) -> String {
        let case = if self.case.is_empty() { String::new() } else { format!(", {}", self.case) };
        format!("`{}`{case}", self.call)
    }
}

const ROW: Row = Row {
    call: "",
    case: "",
    other: "Rust",
    asked: "",
    ends: ENDS,
    windowed: true,
    bar: |_| None,
    goal: |_| None,
    race: Race::Each(|_, _| panic!("no race")),
};

/// Layer 3: the calls of a search and of its cutoffs.
fn searching() -> Vec<Row> {
    vec![
        Row {
            call: "cost",
            asked: "the cost of a list, nothing prepared",
            ends: GROWTH,
            bar: |end| Some(if end == 150 { 0.75 } else { 0.70 }),
            race: Race::Each(searching::cost),
            ..ROW
        },
        Row {
            call: "cost_prepared",
            asked: "the cost of a list over a prepared window",
            ends: GROWTH,
            bar: |end| [(150, 0.62), (600, 0.50), (2000, 0.42)].into_iter().find(|&(at, _)| at == end).map(|(_, bar)| bar),
            goal: |end| [(150, 0.5), (600, 0.4), (2000, 0.33)].into_iter().find(|&(at, _)| at == end).map(|(_, goal)| goal),
            race: Race::Each(searching::cost_prepared),
            ..ROW
        },
        Row { call: "unpack", asked: "the fit of a list", bar: |_| Some(0.8), race: Race::Each(searching::unpack), ..ROW },
        Row {
            call: "error_mode",
            asked: "where the error component is highest",
            bar: |_| Some(0.6),
            race: Race::Each(searching::error_mode),
            ..ROW
        },
        Row {
            call: "component_heights_to",
            asked: "the three heights at each count of the window",
            bar: |_| Some(0.5),
            race: Race::Each(searching::heights),
            ..ROW
        },
        Row {
            call: "hole_cutoff",
            asked: "the cutoff that a budget of 2^-14 to 2^-4 of the genome's k-mers allows",
            bar: |_| Some(1.0),
            race: Race::Each(searching::hole_cutoff),
            ..ROW
        },
        Row {
            call: "hole_cutoff_sure",
            asked: "the same, and whether its sums are near, beside the port's `hole_cutoff`",
            other: "hole_cutoff",
            race: Race::Each(searching::hole_cutoff_sure),
            ..ROW
        },
        Row {
            call: "crossover",
            asked: "where the single-copy component outgrows the error's",
            bar: |_| Some(0.5),
            race: Race::Each(searching::crossover),
            ..ROW
        },
        Row {
            call: "error_floor_cutoff",
            asked: "where the errors fall below the peak's height",
            bar: |_| Some(0.5),
            race: Race::Each(searching::error_floor_cutoff),
            ..ROW
        },
    ]
}

/// The two Rusts of the validator.
const DOCUMENT: &str = "document 01's rules in Rust";
const OWN: &str = "Rust, its own rules";

/// Layer 4: what is made before a search, and of its runs.
fn fitting() -> Vec<Row> {
    vec![
        Row { call: "recover_bins", asked: "the bins at a scale of 2.5", race: Race::All(fitting::recover_bins), ..ROW },
        Row {
            call: "empirical_shelf_share",
            asked: "the shelf share at a scale of 2.5, the recovery included on both sides",
            race: Race::All(fitting::empirical_shelf_share),
            ..ROW
        },
        Row {
            call: "fit_starts",
            asked: "the starts of a search, three seeds and a hint, two shapes",
            ends: MIDDLE,
            windowed: false,
            race: Race::Each(fitting::fit_starts),
            ..ROW
        },
        Row { call: "validate_fit", other: DOCUMENT, asked: "the verdict on a valid fit", race: Race::Each(fitting::validate_fit), ..ROW },
        Row { call: "validate_fit", other: OWN, race: Race::Each(fitting::validate_fit_own), ..ROW },
    ]
}

fn attempts() -> Vec<Row> {
    let row = || Row { call: "attempt_from_numbers", ends: MIDDLE, bar: |_| Some(1.0), ..ROW };
    let (valid, rejected) = ("least run valid", "all 24 rejected");
    vec![
        Row {
            case: valid,
            other: DOCUMENT,
            asked: "the attempt over 24 runs, the points of a search's second half; rejected with the peak four times as far out",
            race: Race::Each(runs::valid),
            ..row()
        },
        Row { case: valid, other: OWN, race: Race::Each(runs::valid_own), ..row() },
        Row { case: rejected, other: DOCUMENT, race: Race::Each(runs::rejected), ..row() },
        Row { case: rejected, other: OWN, race: Race::Each(runs::rejected_own), ..row() },
        Row {
            call: "select_fit",
            asked: "the fit that is selected out of four attempts, each with a candidate",
            ends: MIDDLE,
            windowed: false,
            race: Race::All(fitting::select_fit),
            ..ROW
        },
    ]
}

pub fn rows() -> Vec<Row> {
    [searching(), fitting(), attempts()].into_iter().flatten().collect()
}
