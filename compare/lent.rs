//! Buffers that are lent to the calls, with canaries around them.

use std::fmt::Debug;

/// So many places before and behind a buffer must stay as they are.
const CANARIES: usize = 16;

/// A lent buffer between two rows of canaries.
pub struct Lent<T> {
    all: Vec<T>,
    size: usize,
    canary: T,
}

impl<T: Copy + PartialEq + Debug> Lent<T> {
    pub fn new(contents: &[T], canary: T) -> Lent<T> {
        let mut all = vec![canary; CANARIES];
        all.extend_from_slice(contents);
        all.extend(std::iter::repeat(canary).take(CANARIES));
        Lent { all, size: contents.len(), canary }
    }

    pub fn part(&mut self) -> &mut [T] {
        &mut self.all[CANARIES..CANARIES + self.size]
    }

    pub fn now(&self) -> &[T] {
        &self.all[CANARIES..CANARIES + self.size]
    }

    pub fn canaries_live(&self) -> bool {
        let (before, rest) = self.all.split_at(CANARIES);
        before.iter().chain(&rest[self.size..]).all(|x| *x == self.canary)
    }
}

pub fn bytes(contents: &[u8]) -> Lent<u8> {
    Lent::new(contents, 0xC5)
}

pub fn numbers(contents: &[u64]) -> Lent<u64> {
    Lent::new(contents, 0xC5C5_C5C5_C5C5_C5C5)
}
