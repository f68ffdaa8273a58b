//! What the port does on the path beside the oracle's calls, through its C interface: the file, and the cost that a search lowers.

use crate::port;
use crate::prepared;
use crate::sample::{cap, Sample};
use crate::simplex::{self, Run};

#[repr(C)]
struct File {
    number: u8,
    items: usize,
    place: usize,
}

extern "C" {
    fn fog_read_histogram(file: *const u8, length: usize, bins: *mut u32, room: usize) -> File;
}

const MOST_BINS: usize = 2047;

pub fn bins(file: &[u8]) -> Vec<u32> {
    let mut bins = vec![0; MOST_BINS];
    let read = unsafe { fog_read_histogram(file.as_ptr(), file.len(), bins.as_mut_ptr(), bins.len()) };
    assert_eq!(read.number, 0, "the port refuses the sample");
    bins.truncate(read.items);
    bins
}

/// A run from each of the starts, which stand one behind the other, over the port's prepared cost.
pub fn runs(s: &Sample, families: (u8, u8), starts: &[f64]) -> Vec<Run> {
    let (mut asked, mut table) = (s.problem(families), vec![0.0; s.window_end + 1]);
    let ready = prepared::window(asked.window_end);
    let mut cost = |list: &[f64]| {
        asked.theta.clear();
        asked.theta.extend(list);
        let cost = prepared::cost(&asked, &ready, &mut table);
        assert_eq!(cost.number, 0, "the port refuses a list");
        cost.value
    };
    let length = port::list_length(families.0, families.1);
    starts.chunks_exact(length).map(|start| simplex::run(start, cap(families.1), &mut cost)).collect()
}
