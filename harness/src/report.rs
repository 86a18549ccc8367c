//! What a comparison found, and how long it may take.

use std::cell::Cell;
use std::fmt::Debug;
use std::time::Instant;

/// A comparison goes on until its time is over and it has had its least number of cases.
pub struct Budget {
    end: Instant,
    least: u64,
    asked: Cell<u64>,
}

impl Budget {
    pub fn new(end: Instant, least: u64) -> Self {
        Self { end, least, asked: Cell::new(0) }
    }

    /// For cases of some nanoseconds: the clock is read at every 256th asking.
    pub fn goes_on(&self, cases: u64) -> bool {
        self.asked.set(self.asked.get() + 1);
        cases < self.least || self.asked.get() % 256 != 0 || Instant::now() < self.end
    }

    /// For lists of samples or calls.
    pub fn has_time(&self, lists: u64) -> bool {
        lists < self.least || Instant::now() < self.end
    }
}

/// Differences are shown from the smallest input on, this many.
const SHOWN: usize = 8;

#[derive(Default)]
pub struct Report {
    pub cases: u64,
    pub differences: u64,
    shown: Vec<(u64, String)>,
    told: Vec<String>,
}

impl Report {
    /// Counts a case, and where `ours` is not `oracle`'s shows it by `input`, `size` saying how small that is.
    pub fn compare<T: Alike + Debug>(&mut self, size: u64, input: impl FnOnce() -> String, ours: T, oracle: T) {
        self.cases += 1;
        if !ours.alike(&oracle) {
            self.differs(size, format!("{}: the part {ours:?}, the Rust {oracle:?}", input()));
        }
    }

    pub fn differs(&mut self, size: u64, text: String) {
        self.differences += 1;
        let at = self.shown.partition_point(|shown| shown.0 <= size);
        self.shown.insert(at, (size, text));
        self.shown.truncate(SHOWN);
    }

    /// A line that stands before the report's own.
    pub fn tell(&mut self, line: String) {
        self.told.push(line);
    }

    pub fn print(&self, name: &str) {
        for line in &self.told {
            println!("{name}: {line}");
        }
        for (_, text) in &self.shown {
            println!("{name} differs at {text}");
        }
        println!("{name}\t{}\t{}", self.cases, self.differences);
    }
}

/// Equal bit for bit, any two NaNs being alike.
pub trait Alike {
    fn alike(&self, other: &Self) -> bool;
}

impl Alike for f64 {
    fn alike(&self, other: &f64) -> bool {
        self.to_bits() == other.to_bits() || (self.is_nan() && other.is_nan())
    }
}

impl Alike for f32 {
    fn alike(&self, other: &f32) -> bool {
        self.to_bits() == other.to_bits() || (self.is_nan() && other.is_nan())
    }
}

impl Alike for u64 {
    fn alike(&self, other: &u64) -> bool {
        self == other
    }
}

impl Alike for bool {
    fn alike(&self, other: &bool) -> bool {
        self == other
    }
}

impl<T: Alike> Alike for [T] {
    fn alike(&self, other: &[T]) -> bool {
        self.len() == other.len() && self.iter().zip(other).all(|(a, b)| a.alike(b))
    }
}

impl<T: Alike, const N: usize> Alike for [T; N] {
    fn alike(&self, other: &[T; N]) -> bool {
        self[..].alike(&other[..])
    }
}

impl<A: Alike, B: Alike> Alike for (A, B) {
    fn alike(&self, other: &(A, B)) -> bool {
        self.0.alike(&other.0) && self.1.alike(&other.1)
    }
}
