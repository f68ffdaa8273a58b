//! What the calls of a search are lent, with guards, and how it stands in the oracle's words.

use std::ops::{Deref, DerefMut};

/// An entry of a column: its word, and one that no call may write over.
pub trait Entry: Copy + PartialEq {
    const GUARD: Self;
    fn word(self) -> u64;
    fn of(word: u64) -> Self;
}

impl Entry for f64 {
    const GUARD: f64 = -1.2345678901234567e300;

    fn word(self) -> u64 {
        self.to_bits()
    }

    fn of(word: u64) -> f64 {
        f64::from_bits(word)
    }
}

impl Entry for u64 {
    const GUARD: u64 = 0xfeed_face_cafe_beef;

    fn word(self) -> u64 {
        self
    }

    fn of(word: u64) -> u64 {
        word
    }
}

/// A flag of C: 0, or any other byte.
impl Entry for u8 {
    const GUARD: u8 = 0xa5;

    fn word(self) -> u64 {
        self.into()
    }

    fn of(word: u64) -> u8 {
        word as u8
    }
}

/// A slice in the middle of a larger buffer, whose ends must stay.
#[derive(Clone)]
pub struct Slice<T>(Vec<T>);

impl<T: Entry> Slice<T> {
    pub fn of(entries: &[T]) -> Slice<T> {
        Slice([&[T::GUARD], entries, &[T::GUARD]].concat())
    }

    fn checked(&self) -> &[T] {
        assert!(self.0[0] == T::GUARD && self.0[self.0.len() - 1] == T::GUARD, "written outside a slice");
        self
    }

    /// Every entry from one on, by its bits.
    pub fn words(&self, from: usize) -> Vec<u64> {
        self.checked()[from.min(self.len())..].iter().map(|&entry| entry.word()).collect()
    }
}

impl<T> Deref for Slice<T> {
    type Target = [T];

    fn deref(&self) -> &[T] {
        &self.0[1..self.0.len() - 1]
    }
}

impl<T> DerefMut for Slice<T> {
    fn deref_mut(&mut self) -> &mut [T] {
        let behind = self.0.len() - 1;
        &mut self.0[1..behind]
    }
}

/// The runs as they stand, and the two slices that a cost works in.
#[derive(Clone)]
pub struct Lent {
    pub simplexes: Slice<f64>,
    pub iterations: Slice<u64>,
    pub stopped: Slice<u8>,
    pub ready: Slice<f64>,
    pub table: Slice<f64>,
}

/// The columns that a report writes.
#[derive(Clone)]
pub struct Report {
    pub converged: Slice<u8>,
    pub costs: Slice<f64>,
    pub places: Slice<u64>,
    pub lengths: Slice<u64>,
    pub caps: Slice<u8>,
}

impl Lent {
    /// All by its bits: as a refusal must leave it.
    pub fn words(&self) -> Vec<u64> {
        let numbers = [&self.simplexes, &self.ready, &self.table].map(|slice| slice.words(0)).concat();
        [numbers, self.iterations.words(0), self.stopped.words(0)].concat()
    }
}

impl Report {
    pub fn words(&self) -> Vec<u64> {
        let wholes = [&self.places, &self.lengths].map(|slice| slice.words(0)).concat();
        [self.converged.words(0), self.costs.words(0), wholes, self.caps.words(0)].concat()
    }
}

// ---- columns as words: a length, then the entries

pub fn push<T: Entry>(w: &mut Vec<u64>, column: &[T]) {
    w.push(column.len() as u64);
    w.extend(column.iter().map(|&entry| entry.word()));
}

/// The columns from a word on.
pub struct Columns<'a>(pub &'a [u64]);

impl Columns<'_> {
    pub fn take<T: Entry>(&mut self) -> Vec<T> {
        let (column, rest) = self.0[1..].split_at(self.0[0] as usize);
        self.0 = rest;
        column.iter().map(|&word| T::of(word)).collect()
    }
}
