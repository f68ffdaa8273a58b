//! Compares the port's histogram file with a reader and a writer made from document 01, or measures their speed. `oracle/files` builds it.

#[path = "../draw.rs"]
#[allow(dead_code)]
mod draw;
mod file;
mod lent;
mod made;
mod port;
mod reading;
mod speed;
mod tally;
mod writing;

use made::COUNTS;
use reading::Reader;
use tally::Tally;
use writing::Writer;

const DAMAGED: u64 = 10_000_000;
const WRITES: u64 = 1_000_000;

/// Prints the table; whether all is well.
fn compare() -> bool {
    let mut tally = Tally::default();
    let mut reader = Reader::new();
    reader.run(&mut tally);
    Writer::new().run(&mut tally);
    println!("{}", tally.table());
    println!("{} files were damaged or random. Accepted files had {} of the {COUNTS} bin counts.\n", reader.damaged, reader.counts());
    let mut faults = tally.faults();
    if reader.counts() != COUNTS {
        faults.push("a bin count was not reached".into());
    }
    let writes = tally.comparisons(writing::CALL);
    for (what, seen, wanted) in [("damaged or random files", reader.damaged, DAMAGED), ("writes", writes, WRITES)] {
        if seen < wanted {
            faults.push(format!("{seen} {what} are too few"));
        }
    }
    for fault in &faults {
        println!("- {fault}");
    }
    faults.is_empty()
}

fn main() {
    let well = match std::env::args().nth(1).as_deref() {
        None => compare(),
        Some("--speed") => speed::measure(),
        Some(word) => panic!("files: {word} is no option"),
    };
    if !well {
        std::process::exit(1);
    }
}
