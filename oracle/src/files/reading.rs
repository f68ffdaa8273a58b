//! Files through the port's reader: its answer and every lent bin against the reader of `file.rs`.

use crate::draw::Draw;
use crate::file::{self, LONGEST};
use crate::lent::Lent;
use crate::made::*;
use crate::port;
use crate::tally::{Row, Tally};

const CALL: &str = "fog_read_histogram";

struct Stratum {
    name: &'static str,
    inputs: u64,
    make: Make,
    /// Of files that were spoilt, or drawn at random.
    damaged: bool,
}

type Make = fn(&mut Draw, u64, &mut Made);

const fn stratum(name: &'static str, inputs: u64, make: Make) -> Stratum {
    Stratum { name, inputs, make, damaged: false }
}

const fn damaged(name: &'static str, inputs: u64, make: Make) -> Stratum {
    Stratum { name, inputs, make, damaged: true }
}

const STRATA: [Stratum; 39] = [
    stratum("document 01's own", CASES.len() as u64, a_case),
    stratum("valid, 2 to 20 bins", 1_000_000, |draw, _, made| {
        let n = few(draw);
        made.valid(draw, n, any_bin)
    }),
    stratum("valid, each bin count", 200 * COUNTS, |draw, i, made| made.valid(draw, each(i), any_bin)),
    stratum("valid, one byte a bin", 100 * COUNTS, |draw, i, made| made.valid(draw, each(i), one_byte_bin)),
    stratum("valid, five bytes a bin", 100 * COUNTS, |draw, i, made| made.valid(draw, each(i), five_byte_bin)),
    stratum("valid, bins beside 128^k and 2^32-1", 700_000, |draw, _, made| {
        let n = few(draw);
        made.valid(draw, n, edge_bin)
    }),
    stratum("valid, all bins zero", 100_000, |draw, i, made| made.valid(draw, 2 + i % 300, |_| 0)),
    stratum("lent bins one short", 500_000, |draw, _, made| lent(draw, made, |_, n| n - 1)),
    stratum("lent bins exact", 300_000, |draw, _, made| lent(draw, made, |_, n| n)),
    stratum("lent bins longer", 500_000, |draw, _, made| lent(draw, made, |draw, n| n + 1 + draw.below(40) as usize)),
    stratum("lent bins none or one", 300_000, |draw, _, made| lent(draw, made, |draw, _| draw.below(2) as usize)),
    damaged("bin count 0", 100_000, |draw, _, made| miscounted(draw, made, 0)),
    damaged("bin count 1", 100_000, |draw, _, made| miscounted(draw, made, 1)),
    stratum("bin count 2", 100_000, |draw, _, made| made.valid(draw, 2, any_bin)),
    stratum("bin count 2,047", 20_000, |draw, _, made| made.valid(draw, 2047, any_bin)),
    damaged("bin count 2,048", 20_000, |draw, _, made| miscounted(draw, made, 2048)),
    damaged("bin count above 2,048", 200_000, |draw, _, made| {
        let said = if draw.one_in(2) { 2049 + draw.below(30_000) } else { 2049 + (draw.word() >> 1 >> draw.below(50)) };
        miscounted(draw, made, said)
    }),
    damaged("wrong first byte", 300_000, |draw, _, made| {
        made_few(draw, made);
        let byte = draw.below(127) as u8;
        made.replace(0, &[if byte == 0 { 0 } else { byte + 1 }]);
    }),
    damaged("wrong form in several groups", 100_000, |draw, _, made| {
        made_few(draw, made);
        let mut bytes = Vec::new();
        file::put(&mut bytes, 128 + (draw.word() >> 8 >> draw.below(50)));
        made.replace(0, &bytes);
    }),
    damaged("longer form of the form", 200_000, |draw, _, made| longer_form(draw, made, 0, 1)),
    damaged("longer form of the bin count", 200_000, |draw, _, made| longer_form(draw, made, 1, 2)),
    damaged("longer form of a bin", 500_000, |draw, _, made| longer_form(draw, made, 2, usize::MAX)),
    damaged("a bin above 2^32-1 in five groups", 400_000, |draw, _, made| bad_bin(draw, made, five_groups)),
    damaged("a bin in six to ten groups", 400_000, |draw, _, made| bad_bin(draw, made, more_groups)),
    damaged("a bin in eleven groups or more", 200_000, |draw, _, made| bad_bin(draw, made, too_many_groups)),
    damaged("cut inside a number", 500_000, cut_inside),
    damaged("cut between numbers", 500_000, |draw, _, made| {
        made_few(draw, made);
        let at = made.start(draw.below(made.numbers() as u64) as usize);
        made.cut(at, at);
    }),
    damaged("no byte", 1_000, |draw, _, made| {
        made.bytes(std::iter::empty());
        made.known = Known::Fault(0);
        made.any_room(draw);
    }),
    damaged("one byte", 100_000, |draw, i, made| {
        made.bytes(std::iter::once(i as u8));
        made.known = Known::Fault(if i as u8 == 1 { 1 } else { 0 });
        made.any_room(draw);
    }),
    damaged("a last number without end", 100_000, |draw, _, made| {
        made_few(draw, made);
        let i = draw.below(made.numbers() as u64) as usize;
        let fault = made.start(i);
        made.cut(fault, fault);
        made.file.extend(endless(draw));
    }),
    damaged("bytes appended", 500_000, |draw, _, made| {
        made_few(draw, made);
        let n = 1 + draw.below(8);
        made.append(draw, n);
    }),
    damaged("longer than any file", 10_000, |draw, _, made| {
        made.valid(draw, 2047, five_byte_bin);
        assert!(made.file.len() == LONGEST);
        let n = 1 + draw.below(20_000);
        made.append(draw, n);
    }),
    damaged("two faults", 500_000, two_faults),
    damaged("a fault and too few lent bins", 500_000, |draw, i, made| {
        two_faults(draw, i, made);
        made.room = draw.below(made.bins.len() as u64) as usize;
    }),
    damaged("a bit flipped", 1_500_000, |draw, _, made| {
        made_few(draw, made);
        flip(draw, made);
    }),
    damaged("a byte replaced", 1_000_000, |draw, _, made| {
        made_few(draw, made);
        let at = draw.below(made.file.len() as u64) as usize;
        made.file[at] ^= 1 + draw.below(255) as u8;
        made.known = Known::Open;
    }),
    damaged("a bit flipped, each bin count", 100 * COUNTS, |draw, i, made| {
        made.valid(draw, each(i), any_bin);
        flip(draw, made);
    }),
    damaged("random bytes", 1_200_000, |draw, _, made| {
        let n = draw.below(64);
        made.bytes((0..n).map(|_| draw.word() as u8));
        made.room = 20;
    }),
    damaged("random bytes behind 1 and a bin count", 1_500_000, |draw, _, made| {
        let count = 2 + draw.below(7);
        let n = count + draw.below(6);
        let bins = (0..n).map(|_| draw.word() as u8 & (0x7f | (draw.word() & draw.word()) as u8));
        made.bytes([1, count as u8].into_iter().chain(bins));
        made.room = draw.below(12) as usize;
    }),
];

type Case = (&'static [u8], Result<&'static [u32], usize>);

/// Files that document 01 and its rules name.
const CASES: [Case; 12] = [
    (&[1, 3, 0xac, 2, 0, 5], Ok(&[300, 0, 5])),
    (&[1, 2, 0x80, 0, 0], Err(2)),
    (&[1, 2, 0, 0x80, 0], Err(3)),
    (&[1, 2, 0xff, 0xff, 0xff, 0xff, 0x0f, 0], Ok(&[u32::MAX, 0])),
    (&[1, 2, 0xff, 0xff, 0xff, 0xff, 0x10, 0], Err(2)),
    (&[1, 2, 0x80, 0x80, 0x80, 0x80, 0x80, 1, 0], Err(2)),
    (&[1, 2, 7], Err(3)),
    (&[1, 2, 7, 7, 7], Err(4)),
    (&[1, 0x80], Err(1)),
    (&[1, 0x82, 0, 7, 7], Err(1)),
    (&[0x81, 0], Err(0)),
    (&[2, 2, 7, 7], Err(0)),
];

fn a_case(_: &mut Draw, i: u64, made: &mut Made) {
    let (file, says) = CASES[i as usize];
    made.bytes(file.iter().copied());
    made.room = 4;
    match says {
        Ok(bins) => {
            made.bins.extend_from_slice(bins);
            made.known = Known::Valid;
        }
        Err(place) => made.known = Known::Fault(place),
    }
}

/// A valid file of a few bins, or of hundreds, to be spoilt. Room must not matter then.
fn made_few(draw: &mut Draw, made: &mut Made) {
    let n = if draw.one_in(16) { 2 + draw.below(400) } else { few(draw) };
    made.valid(draw, n, any_bin);
    made.any_room(draw);
}

fn lent(draw: &mut Draw, made: &mut Made, room: fn(&mut Draw, usize) -> usize) {
    made_few(draw, made);
    made.room = room(draw, made.bins.len());
}

/// A bin count outside its range, before as many bins as it says where that is possible.
fn miscounted(draw: &mut Draw, made: &mut Made, said: u64) {
    made.counted(draw, said, said.min(2048), if said > 2048 { one_byte_bin } else { any_bin });
    made.known = Known::Fault(1);
}

fn longer_form(draw: &mut Draw, made: &mut Made, from: usize, to: usize) {
    made_few(draw, made);
    let i = from + draw.below((to.min(made.numbers()) - from) as u64) as usize;
    let bytes = padded(draw, made.value(i));
    made.replace(i, &bytes);
}

fn bad_bin(draw: &mut Draw, made: &mut Made, bad: fn(&mut Draw) -> Vec<u8>) {
    made_few(draw, made);
    let i = 2 + draw.below(made.bins.len() as u64) as usize;
    let bytes = bad(draw);
    made.replace(i, &bytes);
}

fn cut_inside(draw: &mut Draw, _: u64, made: &mut Made) {
    made_few(draw, made);
    let long: Vec<usize> = (0..made.numbers()).filter(|&i| made.size(i) > 1).collect();
    if long.is_empty() {
        return cut_inside(draw, 0, made);
    }
    let i = draw.pick(&long);
    let at = made.start(i) + 1 + draw.below(made.size(i) as u64 - 1) as usize;
    made.cut(at, made.start(i));
}

/// Two numbers at fault, and bytes behind the last: the first counts.
fn two_faults(draw: &mut Draw, _: u64, made: &mut Made) {
    const FAULTS: [fn(&mut Draw) -> Vec<u8>; 4] = [five_groups, more_groups, too_many_groups, |draw| padded(draw, 5)];
    made_few(draw, made);
    let last = made.numbers() - 1;
    let first = draw.below(last as u64) as usize;
    let second = first + 1 + draw.below((last - first) as u64) as usize;
    let n = draw.below(4);
    made.append(draw, n);
    for i in [second, first] {
        let bytes = draw.pick(&FAULTS)(draw);
        made.replace(i, &bytes);
    }
}

fn flip(draw: &mut Draw, made: &mut Made) {
    let at = draw.below(made.file.len() as u64) as usize;
    made.file[at] ^= 1 << draw.below(8);
    made.known = Known::Open;
}

pub struct Reader {
    /// What the reader of `file.rs` gave.
    bins: Vec<u32>,
    lent: Lent<u32>,
    /// The file that the port's writer makes of the bins again.
    back: Vec<u8>,
    /// The bin counts of the files that were accepted.
    counts: [bool; 2048],
    /// How many files were spoilt, or drawn at random.
    pub damaged: u64,
}

impl Reader {
    pub fn new() -> Reader {
        Reader { bins: Vec::new(), lent: Lent::new(), back: vec![0; LONGEST], counts: [false; 2048], damaged: 0 }
    }

    /// Whether the file's making and the reader of `file.rs` say the same.
    fn as_made(&mut self, made: &Made) -> (bool, Result<(), usize>) {
        let says = file::read(&made.file, &mut self.bins);
        let same = match made.known {
            Known::Valid => says.is_ok() && self.bins == made.bins,
            Known::Fault(place) => says == Err(place),
            Known::Open => true,
        };
        (same, says)
    }

    fn compare(&mut self, made: &Made, says: Result<(), usize>, seed: u64, row: &mut Row) {
        let answer = |number, items, place| port::Read { number, items, place };
        let want = match says {
            Err(place) => answer(3, 0, place),
            Ok(()) if self.bins.len() > made.room => answer(10, 0, 0),
            Ok(()) => answer(0, self.bins.len(), 0),
        };
        let memory = self.lent.lend(made.room, seed, &self.bins[..want.items]);
        let got = port::read(&made.file, memory);
        let mut same = got == want && self.lent.is_as_wanted();
        if want.number == 0 {
            self.counts[want.items] = true;
            let written = port::write(&self.bins, &mut self.back);
            same &= written.number == 0 && self.back[..written.items.min(LONGEST)] == made.file;
        }
        row.compare(want.number, same, || {
            let start: String = made.file.iter().take(48).map(|byte| format!(" {byte:02x}")).collect();
            format!("{} bytes{start}, {} bins lent: port {got:?}, Rust {want:?}", made.file.len(), made.room)
        });
    }

    pub fn run(&mut self, tally: &mut Tally) {
        let mut made = Made::new();
        for stratum in &STRATA {
            let mut draw = Draw::named(&format!("{CALL} {}", stratum.name));
            let mut row = Row::new(CALL, stratum.name, stratum.inputs);
            for i in 0..stratum.inputs {
                (stratum.make)(&mut draw, i, &mut made);
                let (same, says) = self.as_made(&made);
                if same {
                    self.compare(&made, says, draw.word(), &mut row);
                    self.damaged += u64::from(stratum.damaged);
                }
            }
            tally.add(row);
        }
    }

    /// How many of the bin counts 2 to 2,047 an accepted file had.
    pub fn counts(&self) -> u64 {
        self.counts.iter().filter(|&&seen| seen).count() as u64
    }
}
