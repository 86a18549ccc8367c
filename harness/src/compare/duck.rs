//! The duck's gain, sample by sample, under runs with and without drums.

use oracle::stream::lanes::Duck;
use oracle::stream::gain_of_db;
use oracle::synth::{SIDECHAIN_ATTACK_S, SIDECHAIN_DB, SIDECHAIN_RELEASE_S, samples_at, sidechain_gain};

use super::lists::{self, List, Met};
use crate::part::{self, goqhari_test_sidechain};
use crate::report::{Budget, Report};
use crate::rng::Rng;
use crate::setup::{RATE, Setup};
use crate::shrink::{Shrink, each_without};

/// Runs, each of some samples with its drums flag, from `start` on.
#[derive(Clone, Debug)]
struct Case {
    kicks: Vec<u64>,
    start: u64,
    runs: Vec<(u64, bool)>,
}

impl Case {
    /// Each sample's gain.
    fn ours(&self) -> Vec<f64> {
        let mut duck = part::Duck::new(&self.kicks);
        let mut n = self.start;
        let mut out = Vec::new();
        for &(len, drums) in &self.runs {
            for _ in 0..len {
                out.push(duck.gain(n, drums));
                n += 1;
            }
        }
        out
    }

    fn oracle(&self) -> Vec<f64> {
        let kicks: Vec<usize> = self.kicks.iter().map(|&kick| kick as usize).collect();
        let mut duck = Duck::new(&kicks, SIDECHAIN_DB, SIDECHAIN_ATTACK_S, SIDECHAIN_RELEASE_S, RATE);
        let mut n = self.start as usize;
        let mut out = Vec::new();
        for &(len, drums) in &self.runs {
            duck.reach(n + len as usize, drums);
            for _ in 0..len {
                out.push(duck.gain(n));
                n += 1;
            }
        }
        out
    }
}

impl List for Case {
    const MATTERS: &[&str] = &["a duck", "a release"];

    fn drawn(rng: &mut Rng) -> Self {
        let start = if rng.flag() { 0 } else { rng.below(1 << 31) };
        let span = rng.scaled(32.0, 40000.0) as u64;
        let setup = Setup::drawn(rng, span);
        let kicks = setup.kicks.iter().map(|kick| (kick + start).min(1 << 32)).collect();
        let mut runs = Vec::new();
        let mut left = span;
        while left > 0 {
            let len = (rng.scaled(1.0, 4096.0) as u64).min(left);
            runs.push((len, !rng.once_in(3)));
            left -= len;
        }
        Self { kicks, start, runs }
    }

    fn samples(&self) -> u64 {
        self.runs.iter().map(|run| run.0).sum()
    }

    fn difference(&self, met: &mut Met) -> Option<String> {
        let oracle = self.oracle();
        let ducked = oracle.iter().position(|&gain| gain < 1.0);
        met.note("a duck", ducked.is_some());
        met.note("a release", ducked.is_some_and(|at| oracle[at..].contains(&1.0)));
        lists::first("gain", &self.ours(), &oracle)
    }
}

impl Shrink for Case {
    fn smaller(&self) -> Vec<Self> {
        let mut out = Vec::new();
        for kicks in each_without(&self.kicks) {
            out.push(Case { kicks, ..self.clone() });
        }
        for runs in each_without(&self.runs) {
            out.push(Case { runs, ..self.clone() });
        }
        for (i, &(len, drums)) in self.runs.iter().enumerate().filter(|(_, run)| run.0 > 1) {
            for shorter in [len / 2, len - 1] {
                let mut runs = self.runs.clone();
                runs[i] = (shorter, drums);
                out.push(Case { runs, ..self.clone() });
            }
        }
        out
    }
}

pub fn run(rng: &mut Rng, budget: Budget) -> Report {
    let mut report = lists::run::<Case>(rng, budget);
    let [attack, release] = [SIDECHAIN_ATTACK_S, SIDECHAIN_RELEASE_S].map(|s| samples_at(s, RATE));
    for since in 0..10_000 {
        let oracle = sidechain_gain(since, gain_of_db(f64::from(SIDECHAIN_DB)), attack, release);
        report.compare(since as u64, || format!("{since} since a kick"), goqhari_test_sidechain(since as u64), oracle);
    }
    report
}
