//! The library that a maker links, by include/goqhari.h. Its memory is lent as slices of any length.

use crate::setup::{Numbers, Setup};

#[path = "../../bindings/rust/src/raw.rs"]
mod raw;

/// The header's sizes: numbers and words of a packed strip, and the stores'.
pub const NUMBERS: usize = 87;
pub const WORDS: usize = 19;
pub const STORE: usize = 49_152;
pub const COUNTS: usize = 4_096;

/// What a call is lent of a strip's memory.
pub struct Lent<'a> {
    pub numbers: &'a mut [f64],
    pub words: &'a mut [u64],
    pub store: &'a mut [f64],
    pub counts: &'a mut [u64],
}

impl Lent<'_> {
    pub fn open(self, setup: &Setup) -> u64 {
        let Numbers { f32s, f64s, flags } = setup.numbers();
        self.open_by(&f32s, &f64s, flags, setup)
    }

    /// With numbers and flags of one's own; the lists are the setup's.
    pub fn open_by(self, singles: &[f32; 8], doubles: &[f64; 4], flags: u64, lists: &Setup) -> u64 {
        let Setup { points, values, kicks, .. } = lists;
        let Self { numbers, words, store, counts } = self;
        raw::open(singles, doubles, flags, points, values, kicks, numbers, words, store, counts)
    }

    pub fn run(self, samples: &[f64], drums: u64, frames: &mut [f32], gains: &mut [u64]) -> u64 {
        raw::run(self.numbers, self.words, samples, drums, frames, gains, self.store, self.counts)
    }

    pub fn latch(self, [daylight, rain]: [f32; 2], [grading, darkening]: [u64; 2]) -> u64 {
        raw::latch(self.numbers, self.words, daylight, grading, rain, darkening, self.store, self.counts)
    }

    pub fn rest(self, rests: &mut [u64; 1]) -> u64 {
        raw::rest(self.numbers, self.words, rests, self.store, self.counts)
    }
}

/// A strip's memory, of the asked lengths or longer.
#[derive(Clone)]
pub struct Memory {
    pub numbers: Vec<f64>,
    pub words: Vec<u64>,
    pub store: Vec<f64>,
    pub counts: Vec<u64>,
}

/// What memory holds before any call.
const NUMBER: f64 = -3.0;
const WORD: u64 = 77;

impl Memory {
    /// Each list so many elements longer than asked.
    pub fn new(beyond: usize) -> Self {
        Self {
            numbers: vec![NUMBER; NUMBERS + beyond],
            words: vec![WORD; WORDS + beyond],
            store: vec![NUMBER; STORE + beyond],
            counts: vec![WORD; COUNTS + beyond],
        }
    }

    /// Lends the first elements of each list, so many.
    pub fn lend(&mut self, [numbers, words, store, counts]: [usize; 4]) -> Lent<'_> {
        Lent {
            numbers: &mut self.numbers[..numbers],
            words: &mut self.words[..words],
            store: &mut self.store[..store],
            counts: &mut self.counts[..counts],
        }
    }

    pub fn lengths(&self) -> [usize; 4] {
        [self.numbers.len(), self.words.len(), self.store.len(), self.counts.len()]
    }

    pub fn whole(&mut self) -> Lent<'_> {
        self.lend(self.lengths())
    }

    /// Whether the elements past the asked lengths are as they are at first.
    pub fn kept_beyond(&self) -> bool {
        self.numbers[NUMBERS..].iter().chain(&self.store[STORE..]).all(|&x| x == NUMBER)
            && self.words[WORDS..].iter().chain(&self.counts[COUNTS..]).all(|&n| n == WORD)
    }

    /// Becomes the other, in the memory that it has.
    pub fn become_as(&mut self, other: &Memory) {
        self.numbers.clone_from(&other.numbers);
        self.words.clone_from(&other.words);
        self.store.clone_from(&other.store);
        self.counts.clone_from(&other.counts);
    }

    /// Whether every element is bit for bit the other's, from the given places on.
    pub fn same_from(&self, other: &Memory, [numbers, words, store, counts]: [usize; 4]) -> bool {
        let bits = |x: &[f64], y: &[f64]| {
            x.len() == y.len() && x.iter().zip(y).all(|(a, b)| a.to_bits() == b.to_bits())
        };
        bits(&self.numbers[numbers..], &other.numbers[numbers..])
            && self.words[words..] == other.words[words..]
            && bits(&self.store[store..], &other.store[store..])
            && self.counts[counts..] == other.counts[counts..]
    }
}
