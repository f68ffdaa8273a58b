//! Compares the port with the Rust, call by call, and prints what was compared. `oracle/run` builds and starts it.

mod argmin;
mod call;
mod cutoffs;
mod draw;
mod heights;
mod layer1;
mod layer2;
mod layer3;
mod layer4;
mod linked;
mod port;
mod prepared;
mod rules;
mod search;
mod spectra;
mod tally;
mod unaltered;
mod words;
mod written;

use call::{Call, Size};
use std::time::Instant;
use tally::Tally;

/// How many rows of each stratum the replay holds, and how many words the longest may have: in layers 1 and 2, in layer 3, and in
/// layer 4.
const ROWS: [usize; 3] = [8, 2, 1];
const LONGEST: [usize; 3] = [64, 128, 200];

/// Calls that the replay does not know.
const NOT_REPLAYED: [u64; 4] = [83, 84, 93, 106];

/// What the command line asks for: one layer, one call, how many inputs, the replay's rows.
struct Asked {
    layer: Option<u64>,
    call: Option<String>,
    size: Size,
    sample: bool,
}

/// The number behind an option.
fn number(option: &str, word: Option<String>) -> u64 {
    word.and_then(|n| n.parse().ok()).filter(|&n| n > 0).unwrap_or_else(|| panic!("{option} takes a number above 0"))
}

fn asked() -> Asked {
    let mut asked = Asked { layer: None, call: None, size: Size { part: 1, times: 1 }, sample: false };
    let mut words = std::env::args().skip(1);
    while let Some(word) = words.next() {
        match word.as_str() {
            "--layer" => asked.layer = words.next().and_then(|n| n.parse().ok()),
            "--call" => asked.call = words.next(),
            "--part" => asked.size.part = number("--part", words.next()),
            "--times" => asked.size.times = number("--times", words.next()),
            "--sample" => asked.sample = true,
            _ => panic!("oracle: {word} is no option"),
        }
    }
    asked
}

impl Asked {
    fn calls(&self) -> Vec<Call> {
        let layers = [layer1::calls(), layer2::calls(), layer3::calls(), layer4::calls()];
        let wanted = (1..).zip(layers).filter(|(n, _)| self.layer.is_none_or(|layer| layer == *n));
        wanted.flat_map(|(_, calls)| calls).filter(|call| self.call.as_ref().is_none_or(|name| name == call.name)).collect()
    }
}

/// Prints the tables; whether all is well.
fn compare(calls: &[Call], size: Size) -> bool {
    let mut tally = Tally::default();
    for call in calls {
        let started = Instant::now();
        call.compare(&mut tally, size);
        eprintln!("{} .. {} s", call.name, started.elapsed().as_secs());
    }
    let mut faults = tally.faults(size);
    println!("## The port against the Rust\n\n{}\n{}\n", tally.call_table(), tally.totals());
    println!("## The numbers that came back\n\n{}", tally.refusal_table());
    println!("## The port against the unaltered Rust\n\n{}", tally.call_distances());
    if size.part == 1 && calls.iter().any(|call| call.name == "cost") {
        let (table, apart) = layer3::usability::table();
        println!("## How often a cost is infinite\n\n{table}");
        faults.extend(apart);
    }
    if size.part == 1 && calls.iter().any(|call| call.name == "fit_starts") {
        println!("## How a start reads back\n\n{}", layer4::read_back::table());
    }
    println!("## Each stratum\n\n{}", tally.comparison_table());
    println!("## Each stratum against the unaltered Rust\n\n{}", tally.distance_table());
    for fault in &faults {
        println!("- {fault}");
    }
    faults.is_empty()
}

fn main() {
    let asked = asked();
    let calls = asked.calls();
    if asked.sample {
        for call in calls.iter().filter(|call| !NOT_REPLAYED.contains(&call.number)) {
            let upper = usize::from(call.number >= 64) + usize::from(call.number >= 96);
            print!("{}", call.sample(ROWS[upper], LONGEST[upper]));
        }
    } else if !compare(&calls, asked.size) {
        std::process::exit(1);
    }
}
