//! The plate: a fresh one over a signal, call by call.

use oracle::stream::plate::Plate;

use super::lists::{self, List, Met};
use crate::part;
use crate::report::{Budget, Report};
use crate::rng::Rng;
use crate::setup::RATE;
use crate::shrink::Shrink;
use crate::signal::{self, Signal};

#[derive(Clone, Debug)]
struct Case {
    x: Signal,
    calls: Vec<u64>,
}

impl Case {
    fn oracle(&self) -> ([Vec<f64>; 2], bool) {
        let mut plate = Plate::new(RATE);
        let mut sides = [Vec::new(), Vec::new()];
        let mut out = [Vec::new(), Vec::new()];
        let mut at = 0;
        for &size in &self.calls {
            let end = (at + size as usize).min(self.x.len());
            plate.process(&self.x[at..end], &mut out);
            for (side, part) in sides.iter_mut().zip(&out) {
                side.extend_from_slice(part);
            }
            at = end;
        }
        (sides, plate.at_rest())
    }
}

impl List for Case {
    const MATTERS: &[&str] = &["rest after a sound", "sound", "NaN"];

    fn drawn(rng: &mut Rng) -> Self {
        let x = if rng.once_in(8) {
            signal::fading(rng, signal::UNTIL_REST)
        } else {
            let len = rng.scaled(1.0, 60000.0) as usize;
            signal::wild(rng, len)
        };
        Case { calls: lists::sizes(rng, x.len()), x }
    }

    fn samples(&self) -> u64 {
        self.x.len() as u64
    }

    fn difference(&self, met: &mut Met) -> Option<String> {
        let ([our_left, our_right], our_rest) = part::plate(&self.x, &self.calls);
        let ([left, right], rest) = self.oracle();
        met.note("rest after a sound", rest && left.iter().any(|&y| y != 0.0));
        met.note("sound", !rest);
        met.note("NaN", left.iter().any(|y| y.is_nan()));
        lists::first("left", &our_left, &left)
            .or_else(|| lists::first("right", &our_right, &right))
            .or_else(|| lists::first("rest answer", &[our_rest], &[rest]))
    }
}

impl Shrink for Case {
    fn smaller(&self) -> Vec<Self> {
        let calls = vec![self.x.len() as u64];
        let mut out = if self.calls == calls { Vec::new() } else { vec![Case { calls, ..self.clone() }] };
        out.extend(self.x.quieter().into_iter().map(|x| Case { x, ..self.clone() }));
        out
    }
}

pub fn run(rng: &mut Rng, budget: Budget) -> Report {
    lists::run::<Case>(rng, budget)
}
