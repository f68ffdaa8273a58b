//! The time of the calls, beside the unaltered Rust, as one Markdown table. `measure/speed` builds it.
//! Usage: speed DIVISOR CALL END [ROUNDS]: of the spectra and of the slices; one call, one window end, or `all`; for a profiler our side alone,
//! so many times over the inputs. Exits 1 if a bar is missed.
#![allow(dead_code)]

#[path = "speed/agree.rs"]
mod agree;
mod argmin;
mod call;
mod cutoffs;
mod draw;
#[path = "speed/fitting.rs"]
mod fitting;
mod heights;
#[path = "speed/inputs.rs"]
mod inputs;
mod layer3;
mod layer4;
mod linked;
mod port;
mod prepared;
#[path = "speed/race.rs"]
mod race;
#[path = "speed/rows.rs"]
mod rows;
mod rules;
#[path = "speed/runs.rs"]
mod runs;
mod search;
#[path = "speed/searching.rs"]
mod searching;
mod spectra;
mod tally;
mod unaltered;
mod words;

use inputs::{cell, Cell, FAMILIES};
use race::{Times, RUNS};
use rows::{rows, Race, Row};

fn thousands(n: u64) -> String {
    if n < 1000 {
        n.to_string()
    } else {
        format!("{},{:03}", n / 1000, n % 1000)
    }
}

/// The bar and the goal, and whether each is met.
fn judged(row: &Row, end: u64, ratio: f64) -> (String, bool) {
    let Some(bar) = (row.bar)(end) else { return ("none".into(), true) };
    let met = ratio <= bar;
    let mut text = format!("{bar} {}", if met { "met" } else { "**missed**" });
    if let Some(goal) = (row.goal)(end) {
        text += &format!(", goal {goal} {}", if ratio <= goal { "met" } else { "not met" });
    }
    (text, met)
}

/// A line of the table; whether its bar is met.
fn line(row: &Row, end: u64, family: &str, times: &Times) -> bool {
    let (bar, met) = judged(row, end, times.ratio);
    let each = |time: f64| match row.windowed {
        true => format!("{:.2} | {:.1}", time / 1e3, time / end as f64),
        false => format!("{:.2} | -", time / 1e3),
    };
    println!(
        "| {} | {} | {} | {family} | {} | {} | {:.3} ({:.3}–{:.3}) | {bar} |",
        row.name(),
        row.other,
        if row.windowed { thousands(end) } else { "-".into() },
        each(times.ours),
        each(times.theirs),
        times.ratio,
        times.least,
        times.largest
    );
    met
}

/// One call over the configurations of a window end; how many bars were missed.
fn lines(row: &Row, cells: &[Cell], divisor: usize) -> usize {
    let end = cells[0].window_end;
    eprintln!("{}, beside {}, window end {end}", row.name(), row.other);
    match row.race {
        Race::Each(race) => cells.iter().filter(|cell| !line(row, end, cell.family, &race(cell, divisor))).count(),
        Race::All(race) => usize::from(!line(row, end, "-", &race(cells, divisor))),
    }
}

/// Every call over every window end; how many bars were missed.
fn table(rows: &[Row], cells: &[Cell], divisor: usize) -> usize {
    for row in rows.iter().filter(|row| !row.asked.is_empty()) {
        println!("- `{}`: {}.", row.call, row.asked);
    }
    println!(
        "\n| call | beside | window end | family | ours, µs | ns a count | the other, µs | ns a count | ratio | bar |\n\
         |---|---|---|---|---|---|---|---|---|---|"
    );
    let read = |row: &Row| {
        cells
            .chunks(FAMILIES.len())
            .filter(|four| row.ends.contains(&four[0].window_end))
            .map(|four| lines(row, four, divisor))
            .sum::<usize>()
    };
    let missed = rows.iter().map(read).sum();
    println!();
    missed
}

const HEAD: &str = "Microseconds of thread time a call, and nanoseconds for each count of the window; medians of the runs, the two by turns, \
and of their ratios (least–largest). Over simulated spectra, an error tail and two lobes, the peak at a sixth of the window and every bin \
filled, at points of Nelder and Mead's search from the starts of spectrum_fitter.rs, taken evenly along its path. Both sides get the same; \
before, the port's answers were compared with those of the Rust over the port's routines, bit for bit. The validator's rules are document \
01's, and no part of the Rust that was ported: `oracle/src/layer4/validator.rs`, which tries all ten whatever comes first. Beside them stand \
the Rust's own rules, over fits that both accept. An attempt's outcomes are laid ready for the Rust before the clock starts.";

fn main() {
    let words: Vec<String> = std::env::args().skip(1).collect();
    let [divisor, call, end, rounds @ ..] = &words[..] else { panic!("speed DIVISOR CALL END [ROUNDS]") };
    if let Some(rounds) = rounds.first() {
        race::ROUNDS.set(rounds.parse().expect("the rounds are a number")).expect("they are set once");
    }
    let divisor: usize = divisor.parse().expect("the divisor is a number");
    let asked = |which: &str, it: &str| which == "all" || which == it;
    let rows: Vec<Row> = rows().into_iter().filter(|row| asked(call, row.call)).collect();
    let mut ends: Vec<u64> = rows.iter().flat_map(|row| row.ends).copied().filter(|at| asked(end, &at.to_string())).collect();
    ends.sort();
    ends.dedup();
    let cells: Vec<Cell> = ends.iter().flat_map(|&end| FAMILIES.map(|family| cell(end, family, divisor))).collect();
    println!("{HEAD} {RUNS} runs.\n");
    if divisor > 1 {
        println!("**Quick run: 1/{divisor} of the spectra and of the slices.**\n");
    }
    let missed = table(&rows, &cells, divisor);
    if missed > 0 {
        println!("**{missed} bars are missed.**");
        std::process::exit(1);
    }
    println!("Every bar is met.");
}
