//! What the comparisons of whole signals and lists of calls share.

use std::collections::BTreeSet;
use std::fmt::Debug;

use crate::report::{Alike, Budget, Report};
use crate::rng::Rng;
use crate::shrink::{Shrink, smallest};

/// What of the things that matter the lists so far have met.
#[derive(Default)]
pub struct Met(BTreeSet<&'static str>);

impl Met {
    pub fn note(&mut self, what: &'static str, holds: bool) {
        if holds {
            self.0.insert(what);
        }
    }

    /// Reports what matters and was never met.
    pub fn missed(&self, matters: &[&str], many: &str, report: &mut Report) {
        for what in matters.iter().filter(|what| !self.0.contains(*what)) {
            report.differs(0, format!("none of {many}, since none met: {what}"));
        }
    }
}

pub trait List: Shrink + Debug {
    /// What many lists must have met, or the comparison has failed: it could not have seen a difference there.
    const MATTERS: &[&str];

    fn drawn(rng: &mut Rng) -> Self;

    /// How many samples it has.
    fn samples(&self) -> u64;

    /// Where the part and the Rust first differ on it, if they do. Notes what of `MATTERS` the Rust met.
    fn difference(&self, met: &mut Met) -> Option<String>;
}

/// The first place at which two lists differ, be it that one of them ends there.
pub fn first<T: Alike + Debug>(what: &str, ours: &[T], oracle: &[T]) -> Option<String> {
    let same = |at: usize| ours.get(at).zip(oracle.get(at)).is_some_and(|(a, b)| a.alike(b));
    let at = (0..ours.len().max(oracle.len())).find(|&at| !same(at))?;
    Some(format!("{what} {at}: the part {:?}, the Rust {:?}", ours.get(at), oracle.get(at)))
}

/// The lengths of calls, 0 to 4,096 samples each, that make up `len` samples or more.
pub fn sizes(rng: &mut Rng, len: usize) -> Vec<u64> {
    let mut out = Vec::new();
    let mut sum = 0;
    while sum < len as u64 {
        let size = match rng.below(6) {
            0 => rng.pick(&[0, 1, 31, 32, 33, 4096]),
            1 => rng.within(0, 4096),
            _ => rng.scaled(1.0, 4096.0) as u64,
        };
        out.push(size);
        sum += size;
    }
    out
}

/// So many differences have their smallest input sought and shown, which takes seconds; the others are counted.
const SOUGHT: u64 = 3;

/// So many lists are many.
const MANY: u64 = 400;

pub fn run<C: List>(rng: &mut Rng, budget: Budget) -> Report {
    let mut report = Report::default();
    let mut met = Met::default();
    let mut lists = 0;
    while budget.has_time(lists) {
        lists += 1;
        let case = C::drawn(rng);
        report.cases += case.samples();
        if case.difference(&mut met).is_none() {
            continue;
        }
        if report.differences >= SOUGHT {
            report.differences += 1;
            continue;
        }
        let case = smallest(case, |case| case.difference(&mut Met::default()).is_some());
        let at = case.difference(&mut Met::default()).unwrap_or_default();
        report.differs(case.samples(), format!("{case:?}: {at}"));
    }
    if lists >= MANY {
        met.missed(C::MATTERS, &format!("{lists} lists"), &mut report);
    }
    report
}
