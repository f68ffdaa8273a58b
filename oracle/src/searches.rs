//! The port's simplex search against document 02's rule in Rust (`simplex.rs`), and how good and how fast it is. `oracle/searches` builds
//! it twice: with the port's library, and without it, where the four routines are those of `written.rs`.
//! Usage: searches compare [--call NAME] [--part N] [--times N]   the calls, bit for bit, over the Rust's cost linked to the port's routines
//!        searches search port|altered|unaltered FILE FROM TO     what the searches from starts moved in these ways find; 0 is no move
//!        searches good SAMPLES SEARCHED NAME ..                  the page of how good it is, from what the searches printed
//!        searches speed FILE ..                                  the time of a sample's whole search; 1 if a bar is missed
#![allow(dead_code)]

mod argmin;
mod call;
#[path = "searches/calls.rs"]
mod calls;
mod cutoffs;
mod draw;
#[path = "files/file.rs"]
mod file;
#[path = "searches/good.rs"]
mod good;
mod heights;
mod layer3;
mod layer4;
#[path = "path/lines.rs"]
mod lines;
mod linked;
#[cfg(not(written))]
#[path = "searches/picked.rs"]
mod picked;
mod port;
#[path = "searches/port_side.rs"]
mod port_side;
mod prepared;
#[path = "speed/race.rs"]
mod race;
mod rules;
#[path = "path/sample.rs"]
mod sample;
mod search;
#[path = "path/searching.rs"]
mod searching;
#[path = "path/sides.rs"]
mod sides;
mod simplex;
mod spectra;
#[cfg(written)]
#[path = "path/stand_in.rs"]
mod stand_in;
mod tally;
#[path = "searches/timed.rs"]
mod timed;
mod unaltered;
mod words;
#[cfg(written)]
mod written;

use lines::Found;
use sample::Sample;
use searching::Build;
use simplex::Run;

fn text(path: &str) -> String {
    std::fs::read_to_string(path).unwrap_or_else(|why| panic!("{path}: {why}"))
}

fn number(word: &str) -> u64 {
    word.parse().expect("it takes a number")
}

// ---- the calls

/// Prints the tables; whether all is well.
#[cfg(not(written))]
fn compare(words: &[&str]) -> bool {
    let (mut size, mut call) = (call::Size { part: 1, times: 1 }, None);
    for pair in words.chunks(2) {
        match pair {
            ["--call", name] => call = Some(name.to_string()),
            ["--part", n] => size.part = number(n).max(1),
            ["--times", n] => size.times = number(n).max(1),
            _ => panic!("searches: this is no way to ask"),
        }
    }
    let (mut tally, mut searched) = (tally::Tally::default(), false);
    for asked in calls::calls().into_iter().filter(|asked| call.as_ref().is_none_or(|name| name == asked.name)) {
        let started = std::time::Instant::now();
        asked.compare(&mut tally, size);
        searched |= asked.inputs == calls::SEARCHES;
        eprintln!("{} .. {} s", asked.name, started.elapsed().as_secs());
    }
    let mut faults = tally.faults(size);
    println!("## The port against the rule\n\n{}", tally.call_table());
    println!("## The numbers that came back\n\n{}", tally.refusal_table());
    if searched {
        println!("## How {} runs ended, and what their iterations did\n\n{}", calls::ends::runs(), calls::ends::table());
        faults.extend(calls::ends::missing().into_iter().filter(|_| size.part == 1).map(|name| format!("no run: {name}")));
    }
    println!("## Each stratum\n\n{}", tally.comparison_table());
    faults.iter().for_each(|fault| println!("- {fault}"));
    faults.is_empty()
}

// ---- the samples

fn found(s: &Sample, moves: std::ops::RangeInclusive<u64>, build: Build, runs: impl Fn(u64) -> Vec<Vec<Run>>) {
    for way in moves {
        let runs = runs(way);
        let outcome = build.outcome(s, &runs);
        print!("{}", Found { runs, outcome }.lines());
    }
}

/// What becomes of the port's runs is what the Rust over its routines makes of them.
#[cfg(not(written))]
fn search_port(s: &Sample, moves: std::ops::RangeInclusive<u64>) {
    found(s, moves, Build::Altered, |way| port_side::moved(s, way));
}

fn search_rust(s: &Sample, build: Build, moves: std::ops::RangeInclusive<u64>) {
    found(s, moves, build, |way| build.runs(s, way));
}

fn main() {
    let words: Vec<String> = std::env::args().skip(1).collect();
    let well = match &words.iter().map(String::as_str).collect::<Vec<_>>()[..] {
        #[cfg(not(written))]
        ["compare", words @ ..] => compare(words),
        #[cfg(not(written))]
        ["search", "port", path, from, to] => {
            search_port(&Sample::read(path), number(from)..=number(to));
            true
        }
        ["search", build @ ("altered" | "unaltered"), path, from, to] => {
            let build = if *build == "altered" { Build::Altered } else { Build::Unaltered };
            search_rust(&Sample::read(path), build, number(from)..=number(to));
            true
        }
        ["good", samples, searched, names @ ..] => {
            let of = |name: &str, side: &str| Found::all(&text(&format!("{searched}/{name}.{side}")));
            let told = |name: &&str| good::Told {
                name: name.to_string(),
                sample: Sample::read(&format!("{samples}/{name}.histogram")),
                port: of(name, "port"),
                altered: of(name, "altered"),
                unaltered: of(name, "unaltered"),
            };
            good::page(&names.iter().map(told).collect::<Vec<_>>())
        }
        #[cfg(not(written))]
        ["speed", paths @ ..] => timed::page(paths),
        #[cfg(not(written))]
        ["pick", words @ ..] => {
            let program = words.iter().position(|word| *word == "--").expect("the samples stand behind --");
            picked::page(&words[..program], &words[program + 1..])
        }
        _ => panic!("searches: this is no way to ask"),
    };
    if !well {
        std::process::exit(1);
    }
}
