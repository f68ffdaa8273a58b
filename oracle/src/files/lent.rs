//! Memory as it is lent: some entries with guards before and behind, all of them marked, and what they are to be after a call.

const GUARDS: usize = 8;

pub trait Entry: Copy + PartialEq {
    /// A mark that differs from entry to entry and from call to call.
    fn mark(seed: u64, i: usize) -> Self;
}

impl Entry for u8 {
    fn mark(seed: u64, i: usize) -> u8 {
        (seed as u8).wrapping_add((i as u8).wrapping_mul(0x9d))
    }
}

impl Entry for u32 {
    fn mark(seed: u64, i: usize) -> u32 {
        (seed as u32).wrapping_add((i as u32).wrapping_mul(0x9e3779b9))
    }
}

pub struct Lent<T> {
    memory: Vec<T>,
    wanted: Vec<T>,
}

impl<T: Entry> Lent<T> {
    pub fn new() -> Lent<T> {
        Lent { memory: Vec::new(), wanted: Vec::new() }
    }

    /// So many entries, of which the first are to become `answer` and the rest to stay.
    pub fn lend(&mut self, room: usize, seed: u64, answer: &[T]) -> &mut [T] {
        self.memory.clear();
        self.memory.extend((0..room + 2 * GUARDS).map(|i| T::mark(seed, i)));
        self.wanted.clone_from(&self.memory);
        self.wanted[GUARDS..GUARDS + answer.len()].copy_from_slice(answer);
        &mut self.memory[GUARDS..GUARDS + room]
    }

    pub fn is_as_wanted(&self) -> bool {
        self.memory == self.wanted
    }
}
