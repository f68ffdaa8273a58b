//! The whole path from a histogram file to cutoffs. `oracle/path` builds it twice: with the port's library, and without it, where the four
//! routines are those of `written.rs`.
//! Usage: path search altered|unaltered FILE FROM TO   what the searches from starts moved in these ways find; 0 is no move
//!        path judge FILE FOUND                        the port beside the Rust: for each step how many words were compared and how many
//!                                                     differ; FOUND is what `search altered` found
//!        path rows FILE                               the replay's rows of the path of one sample
//!        path report SAMPLES SEARCHED JUDGED NAME ..  the page, from what the two above printed, which is in these folders
#![allow(dead_code)]

mod argmin;
mod call;
mod cutoffs;
mod draw;
#[path = "files/file.rs"]
mod file;
mod heights;
#[path = "path/judge.rs"]
mod judge;
mod layer3;
mod layer4;
#[path = "path/lines.rs"]
mod lines;
mod linked;
mod port;
#[path = "path/port_side.rs"]
mod port_side;
mod prepared;
#[path = "path/report.rs"]
mod report;
mod rules;
#[path = "path/sample.rs"]
mod sample;
mod search;
#[path = "path/searching.rs"]
mod searching;
#[path = "path/sides.rs"]
mod sides;
#[path = "path/simplex.rs"]
mod simplex;
mod spectra;
#[cfg(written)]
#[path = "path/stand_in.rs"]
mod stand_in;
mod tally;
mod unaltered;
mod words;
#[cfg(written)]
mod written;

use lines::Found;
use sample::Sample;
use searching::Build;

fn text(path: &str) -> String {
    std::fs::read_to_string(path).unwrap_or_else(|why| panic!("{path}: {why}"))
}

fn search(build: Build, s: &Sample, moves: std::ops::RangeInclusive<u64>) {
    for moved in moves {
        let runs = build.runs(s, moved);
        let outcome = build.outcome(s, &runs);
        print!("{}", Found { runs, outcome }.lines());
    }
}

#[cfg(not(written))]
fn judge(path: &str, found: &str) {
    let (file, s) = (std::fs::read(path).expect("the sample can be read"), Sample::read(path));
    let mut path = judge::Path::of(&s);
    path.beside(&file, &s, &Found::all(&text(found))[0]);
    path.steps.iter().for_each(|step| println!("{} {} {}", step.compared, step.apart, step.name));
}

#[cfg(not(written))]
fn rows(path: &str) {
    print!("{}", judge::Path::of(&Sample::read(path)).rows);
}

fn told(samples: &str, searched: &str, judged: &str, name: &str) -> report::Told {
    let of = |build: &str| Found::all(&text(&format!("{searched}/{name}.{build}")));
    let step = |line: &str| {
        let words: Vec<&str> = line.splitn(3, ' ').collect();
        (words[2].to_string(), words[0].parse().expect("a number"), words[1].parse().expect("a number"))
    };
    report::Told {
        name: name.into(),
        sample: Sample::read(&format!("{samples}/{name}.histogram")),
        altered: of("altered"),
        unaltered: of("unaltered"),
        judged: text(&format!("{judged}/{name}")).lines().map(step).collect(),
    }
}

fn main() {
    let words: Vec<String> = std::env::args().skip(1).collect();
    let number = |word: &str| word.parse().expect("a move is a number");
    match &words.iter().map(String::as_str).collect::<Vec<_>>()[..] {
        ["search", "altered", path, from, to] => search(Build::Altered, &Sample::read(path), number(from)..=number(to)),
        ["search", "unaltered", path, from, to] => search(Build::Unaltered, &Sample::read(path), number(from)..=number(to)),
        #[cfg(not(written))]
        ["judge", path, found] => judge(path, found),
        #[cfg(not(written))]
        ["rows", path] => rows(path),
        ["report", samples, searched, judged, names @ ..] => {
            report::page(&names.iter().map(|name| told(samples, searched, judged, name)).collect::<Vec<_>>());
        }
        _ => panic!("path: this is no way to ask"),
    }
}
