//! Bins through the port's writer: its answer and every lent byte against the writer of `file.rs`; and what was written is read back.

use crate::draw::Draw;
use crate::file::{self, LONGEST};
use crate::lent::Lent;
use crate::made::*;
use crate::port;
use crate::tally::{Row, Tally};

pub const CALL: &str = "fog_write_histogram";

/// So many lent bytes: beside what the file takes, or whatever it takes.
#[derive(Clone, Copy)]
enum Room {
    Short,
    Exact,
    Longer,
    None,
    Any,
}

type Bin = fn(&mut Draw) -> u32;

struct Stratum {
    name: &'static str,
    inputs: u64,
    /// What comes back, or 0.
    number: u8,
    count: fn(&mut Draw, u64) -> u64,
    bin: Bin,
    room: Room,
}

const fn stratum(name: &'static str, inputs: u64, number: u8, count: fn(&mut Draw, u64) -> u64, bin: Bin, room: Room) -> Stratum {
    Stratum { name, inputs, number, count, bin, room }
}

const FEW: fn(&mut Draw, u64) -> u64 = |draw, _| few(draw);
const IN_TURN: fn(&mut Draw, u64) -> u64 = |_, i| each(i);
const BELOW: fn(&mut Draw, u64) -> u64 = |_, i| i % 2;
const ABOVE: fn(&mut Draw, u64) -> u64 = |draw, i| if i % 100 == 0 { 65_535 + draw.below(3) } else { 2048 + draw.below(40) };

const STRATA: [Stratum; 16] = [
    stratum("0 or 1 bins", 50_000, 1, BELOW, any_bin, Room::Any),
    stratum("0 or 1 bins, no byte lent", 20_000, 1, BELOW, any_bin, Room::None),
    stratum("2,048 bins or more", 10_000, 2, ABOVE, any_bin, Room::Any),
    stratum("2,048 bins or more, no byte lent", 10_000, 2, ABOVE, any_bin, Room::None),
    stratum("2 to 20 bins, bytes one short", 150_000, 10, FEW, any_bin, Room::Short),
    stratum("2 to 20 bins, bytes exact", 150_000, 0, FEW, any_bin, Room::Exact),
    stratum("2 to 20 bins, bytes longer", 150_000, 0, FEW, any_bin, Room::Longer),
    stratum("2 to 20 bins, no byte lent", 50_000, 10, FEW, any_bin, Room::None),
    stratum("bins beside 128^k and 2^32-1, bytes exact", 100_000, 0, FEW, edge_bin, Room::Exact),
    stratum("bins beside 128^k and 2^32-1, bytes one short", 100_000, 10, FEW, edge_bin, Room::Short),
    stratum("all bins zero", 50_000, 0, FEW, |_| 0, Room::Longer),
    stratum("each bin count, bytes exact", 40 * COUNTS, 0, IN_TURN, any_bin, Room::Exact),
    stratum("each bin count, bytes one short", 20 * COUNTS, 10, IN_TURN, any_bin, Room::Short),
    stratum("each bin count, one byte a bin", 10 * COUNTS, 0, IN_TURN, one_byte_bin, Room::Longer),
    stratum("each bin count, five bytes a bin, bytes exact", 10 * COUNTS, 0, IN_TURN, five_byte_bin, Room::Exact),
    stratum("each bin count, five bytes a bin, bytes one short", 10 * COUNTS, 10, IN_TURN, five_byte_bin, Room::Short),
];

impl Room {
    fn bytes(self, draw: &mut Draw, needed: usize) -> usize {
        match self {
            Room::Short => needed - 1,
            Room::Exact => needed,
            Room::Longer if draw.one_in(4) => LONGEST + draw.below(3) as usize,
            Room::Longer => needed + 1 + draw.below(40) as usize,
            Room::None => 0,
            Room::Any => draw.below(200) as usize,
        }
    }
}

pub struct Writer {
    bins: Vec<u32>,
    file: Vec<u8>,
    lent: Lent<u8>,
    /// The bins that the port's reader and the reader of `file.rs` make of the file again.
    back: [Vec<u32>; 2],
}

impl Writer {
    pub fn new() -> Writer {
        Writer { bins: Vec::new(), file: Vec::new(), lent: Lent::new(), back: [vec![0; 2047], Vec::new()] }
    }

    fn reads_back(&mut self) -> bool {
        let [ours, theirs] = &mut self.back;
        let read = port::read(&self.file, ours);
        file::read(&self.file, theirs) == Ok(())
            && *theirs == self.bins
            && read == port::Read { number: 0, items: self.bins.len(), place: 0 }
            && ours[..self.bins.len()] == self.bins
    }

    fn compare(&mut self, stratum: &Stratum, draw: &mut Draw, row: &mut Row) {
        let says = file::write(&self.bins, &mut self.file);
        let room = stratum.room.bytes(draw, self.file.len());
        let answer = |number, items| port::Written { number, items };
        let want = match says {
            Err(number) => answer(number, 0),
            Ok(()) if self.file.len() > room => answer(10, 0),
            Ok(()) => answer(0, self.file.len()),
        };
        if want.number != stratum.number {
            return;
        }
        let memory = self.lent.lend(room, draw.word(), &self.file[..want.items]);
        let got = port::write(&self.bins, memory);
        let mut same = got == want && self.lent.is_as_wanted();
        if want.number == 0 {
            same &= self.reads_back();
        }
        row.compare(want.number, same, || {
            let start: Vec<u32> = self.bins.iter().take(24).copied().collect();
            format!("{} bins {start:?}, {room} bytes lent: port {got:?}, Rust {want:?}", self.bins.len())
        });
    }

    pub fn run(&mut self, tally: &mut Tally) {
        for stratum in &STRATA {
            let mut draw = Draw::named(&format!("{CALL} {}", stratum.name));
            let mut row = Row::new(CALL, stratum.name, stratum.inputs);
            for i in 0..stratum.inputs {
                let n = (stratum.count)(&mut draw, i);
                self.bins.clear();
                self.bins.extend((0..n).map(|_| (stratum.bin)(&mut draw)));
                self.compare(stratum, &mut draw, &mut row);
            }
            tally.add(row);
        }
    }
}
