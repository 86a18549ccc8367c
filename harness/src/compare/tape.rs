//! The tape lane: a fresh one over a signal, by runs and latches.

use oracle::Controls;

use super::lists::{self, List, Met};
use crate::part::{self, Call};
use crate::report::{Budget, Report};
use crate::rng::Rng;
use crate::setup::{RATE, Setup, control};
use crate::shrink::{Shrink, each_without};
use crate::signal::{self, Signal};

#[derive(Clone, Debug)]
pub struct Case {
    pub setup: Setup,
    pub samples: Signal,
    pub calls: Vec<Call>,
}

/// A ramp's length: none, short, longer than the signal, or the longest.
pub fn length(rng: &mut Rng) -> u64 {
    match rng.below(5) {
        0 => 0,
        1 => rng.below(64),
        2 => rng.pick(&[1, 31, 32, 33, 1 << 32]),
        _ => rng.below(5000),
    }
}

impl Case {
    fn ours(&self) -> (Vec<f64>, bool) {
        let mut out = self.samples.to_vec();
        let rest = part::tape(&self.setup, &mut out, &self.calls);
        (out, rest)
    }

    fn oracle(&self) -> (Vec<f64>, bool) {
        let mut automation = self.setup.automation();
        let mut tape = self.setup.tape(&automation, RATE);
        let mut out = self.samples.to_vec();
        let mut band = Vec::new();
        let mut at = 0;
        for &call in &self.calls {
            match call {
                Call::Run(len, drums) => {
                    let end = (at + len as usize).min(out.len());
                    tape.process(&mut out[at..end], at, &automation, drums, &mut band);
                    at = end;
                }
                Call::Latch([daylight, rain], over) => {
                    let [grade_ramp, rain_ramp] = over.map(|len| len as usize);
                    automation.latch(at, Controls { daylight, rain }, grade_ramp, rain_ramp);
                }
            }
        }
        (out, tape.at_rest())
    }

    /// A tone graded over all corners, whose daylight is flipped at once: its sections diverge, up to NaN.
    fn flipped(rng: &mut Rng) -> Self {
        let len = rng.scaled(1000.0, 8000.0) as usize;
        let mut setup = Setup::drawn(rng, len as u64);
        setup.graded = true;
        setup.corners = [20.0, 20_000.0];
        let every = rng.within(1, 40);
        let calls = (0..len as u64 / every + 1)
            .flat_map(|i| {
                let daylight = (i % 2) as f32;
                [Call::Latch([daylight, control(rng)], [0, length(rng)]), Call::Run(every, rng.flag())]
            })
            .collect();
        Self { setup, samples: signal::drawn(rng, len), calls }
    }
}

/// Samples in which most lanes come to rest after a sound.
const UNTIL_REST: usize = 100_000;

impl List for Case {
    const MATTERS: &[&str] = &["rest after a sound", "sound", "NaN", "a tie neared", "a tie reached"];

    fn drawn(rng: &mut Rng) -> Self {
        if rng.once_in(6) {
            return Self::flipped(rng);
        }
        let samples = if rng.once_in(16) {
            signal::fading(rng, UNTIL_REST)
        } else {
            let len = rng.scaled(1.0, 20000.0) as usize;
            signal::drawn(rng, len)
        };
        let len = samples.len();
        let setup = Setup::drawn(rng, len as u64);
        let latches = rng.below(8);
        let mut calls = Vec::new();
        for size in lists::sizes(rng, len) {
            if rng.below(8) < latches {
                calls.push(Call::Latch([control(rng), control(rng)], [length(rng), length(rng)]));
            }
            calls.push(Call::Run(size, rng.flag()));
        }
        Self { setup, samples, calls }
    }

    fn samples(&self) -> u64 {
        self.samples.len() as u64
    }

    fn difference(&self, met: &mut Met) -> Option<String> {
        let ((ours, our_rest), (oracle, rest)) = (self.ours(), self.oracle());
        met.note("rest after a sound", rest && oracle.iter().any(|&y| y != 0.0));
        met.note("sound", !rest);
        met.note("NaN", oracle.iter().any(|y| y.is_nan()));
        let [neared, reached] = self.setup.ties(self.samples());
        met.note("a tie neared", neared);
        met.note("a tie reached", reached);
        lists::first("sample", &ours, &oracle).or_else(|| lists::first("rest answer", &[our_rest], &[rest]))
    }
}

impl Shrink for Case {
    fn smaller(&self) -> Vec<Self> {
        let mut out = Vec::new();
        for samples in self.samples.quieter() {
            out.push(Case { samples, ..self.clone() });
        }
        for calls in each_without(&self.calls) {
            out.push(Case { calls, ..self.clone() });
        }
        for setup in self.setup.smaller() {
            out.push(Case { setup, ..self.clone() });
        }
        out
    }
}

pub fn run(rng: &mut Rng, budget: Budget) -> Report {
    lists::run::<Case>(rng, budget)
}
