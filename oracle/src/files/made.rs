//! Files made from a seed, each with what its making says of it.

use crate::draw::Draw;
use crate::file::put;

/// What a file is by its making.
pub enum Known {
    /// The file of `bins`.
    Valid,
    /// Its first fault has this place.
    Fault(usize),
    /// Chance decides.
    Open,
}

pub struct Made {
    pub file: Vec<u8>,
    pub bins: Vec<u32>,
    /// Where each number starts.
    starts: Vec<usize>,
    pub known: Known,
    /// How many bins are lent.
    pub room: usize,
}

/// Beside each length of a number.
const EDGES: [u32; 13] =
    [0, 1, 127, 128, 16_383, 16_384, 2_097_151, 2_097_152, 268_435_455, 268_435_456, u32::MAX >> 1, u32::MAX - 1, u32::MAX];

pub fn any_bin(draw: &mut Draw) -> u32 {
    draw.word() as u32 >> draw.below(32)
}

pub fn edge_bin(draw: &mut Draw) -> u32 {
    draw.pick(&EDGES)
}

pub fn one_byte_bin(draw: &mut Draw) -> u32 {
    draw.below(128) as u32
}

pub fn five_byte_bin(draw: &mut Draw) -> u32 {
    (1 << 28) + draw.below((1 << 32) - (1 << 28)) as u32
}

pub fn few(draw: &mut Draw) -> u64 {
    2 + draw.below(19)
}

/// How many bin counts there are, 2 to 2,047.
pub const COUNTS: u64 = 2046;

/// Each bin count in its turn.
pub fn each(i: u64) -> u64 {
    2 + i % COUNTS
}

/// Of so many bits, the highest of them set.
fn bits(draw: &mut Draw, n: u64) -> u64 {
    (draw.word() | 1 << 63) >> (64 - n)
}

/// A number made longer: the top bit set on its last group, and groups of 0 behind it.
pub fn padded(draw: &mut Draw, number: u64) -> Vec<u8> {
    let mut bytes = Vec::new();
    put(&mut bytes, number);
    *bytes.last_mut().expect("a number has a byte") |= 0x80;
    let between = if draw.one_in(4) { draw.below(20) } else { 0 };
    bytes.extend((0..between).map(|_| 0x80));
    bytes.push(0);
    bytes
}

/// Above 2^32-1, in five groups.
pub fn five_groups(draw: &mut Draw) -> Vec<u8> {
    let mut bytes = Vec::new();
    let number = if draw.one_in(8) { 1 << 32 } else { (1 << 32) + draw.below((1 << 35) - (1 << 32)) };
    put(&mut bytes, number);
    bytes
}

/// In six to ten groups.
pub fn more_groups(draw: &mut Draw) -> Vec<u8> {
    let mut bytes = Vec::new();
    let n = 36 + draw.below(29);
    put(&mut bytes, bits(draw, n));
    bytes
}

/// In more groups than 64 bits have. Its low bits alone would be a number inside its range.
pub fn too_many_groups(draw: &mut Draw) -> Vec<u8> {
    let mut bytes = vec![0x80 | draw.below(128) as u8];
    let n = 9 + draw.below(30);
    bytes.extend((0..n).map(|_| 0x80));
    bytes.push(1);
    bytes
}

/// A number that breaks off nowhere but at the end of the file.
pub fn endless(draw: &mut Draw) -> Vec<u8> {
    let n = if draw.one_in(50) { 1 + draw.below(20_000) } else { 1 + draw.below(60) };
    (0..n).map(|_| 0x80 | draw.word() as u8).collect()
}

impl Made {
    pub fn new() -> Made {
        Made { file: Vec::new(), bins: Vec::new(), starts: Vec::new(), known: Known::Open, room: 0 }
    }

    fn number(&mut self, number: u64) {
        self.starts.push(self.file.len());
        put(&mut self.file, number);
    }

    /// A valid file of so many bins, and exactly their room.
    pub fn valid(&mut self, draw: &mut Draw, count: u64, bin: impl Fn(&mut Draw) -> u32) {
        self.counted(draw, count, count, bin);
        self.known = Known::Valid;
    }

    /// A file that says how many bins it has, and has so many.
    pub fn counted(&mut self, draw: &mut Draw, said: u64, count: u64, bin: impl Fn(&mut Draw) -> u32) {
        self.file.clear();
        self.starts.clear();
        self.bins.clear();
        self.bins.extend((0..count).map(|_| bin(draw)));
        self.number(1);
        self.number(said);
        for i in 0..self.bins.len() {
            self.number(u64::from(self.bins[i]));
        }
        self.room = count as usize;
        self.known = Known::Open;
    }

    pub fn numbers(&self) -> usize {
        self.starts.len()
    }

    pub fn start(&self, i: usize) -> usize {
        self.starts[i]
    }

    fn end(&self, i: usize) -> usize {
        self.starts.get(i + 1).copied().unwrap_or(self.file.len())
    }

    pub fn size(&self, i: usize) -> usize {
        self.end(i) - self.starts[i]
    }

    pub fn value(&self, i: usize) -> u64 {
        match i {
            0 => 1,
            1 => self.bins.len() as u64,
            _ => u64::from(self.bins[i - 2]),
        }
    }

    /// Other bytes for a number: the fault that is known.
    pub fn replace(&mut self, i: usize, bytes: &[u8]) {
        let (from, to) = (self.starts[i], self.end(i));
        self.file.splice(from..to, bytes.iter().copied());
        for start in &mut self.starts[i + 1..] {
            *start = *start + bytes.len() - (to - from);
        }
        self.known = Known::Fault(from);
    }

    /// Cut at a place: the number that starts at `fault` is cut short or missing.
    pub fn cut(&mut self, at: usize, fault: usize) {
        self.file.truncate(at);
        self.known = Known::Fault(fault);
    }

    pub fn append(&mut self, draw: &mut Draw, n: u64) {
        self.known = Known::Fault(self.file.len());
        self.file.extend((0..n).map(|_| draw.word() as u8));
    }

    /// Some bytes alone.
    pub fn bytes(&mut self, bytes: impl Iterator<Item = u8>) {
        self.file.clear();
        self.file.extend(bytes);
        self.bins.clear();
        self.starts.clear();
        self.known = Known::Open;
    }

    /// Room that must not matter.
    pub fn any_room(&mut self, draw: &mut Draw) {
        let n = self.bins.len();
        self.room = draw.pick(&[0, 1, n.saturating_sub(1), n, n + 3, 64]);
    }
}
