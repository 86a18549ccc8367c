//! The oracle's strip: the Rust's Tape, Plate and Ceiling joined as 01 says, with 01's refusals of a list of calls.

use oracle::Controls;
use oracle::stream::lanes::{Automation, Tape};
use oracle::stream::master::Ceiling;
use oracle::stream::plate::Plate;

use crate::compare::ceiling::limited;
use crate::compare::refusals::{self, END};
use crate::library::{COUNTS, NUMBERS, STORE, WORDS};
use crate::setup::{Numbers, Setup};

pub struct Strip {
    pub automation: Automation,
    pub tape: Tape,
    send: f64,
    plate: Plate,
    ceiling: Ceiling,
    pub n: u64,
}

/// NaN is in no range.
fn within<T: PartialOrd>(x: T, a: T, b: T) -> bool {
    a <= x && x <= b
}

/// What open declines by, or 0.
pub fn why_not(setup: &Setup) -> u64 {
    let Numbers { f32s, f64s, flags } = setup.numbers();
    refusals::open([NUMBERS, WORDS, STORE, COUNTS], &f32s, &f64s, flags, setup).answer()
}

impl Strip {
    /// A strip of a setup that `why_not` passes, at a rate.
    pub fn open(setup: &Setup, rate: u32) -> Self {
        let automation = setup.automation();
        Self {
            tape: setup.tape(&automation, rate),
            automation,
            send: setup.send,
            plate: Plate::new(rate),
            ceiling: Ceiling::new(rate),
            n: 0,
        }
    }

    /// What a run of exact outputs declines by, or its frames and gain counts.
    pub fn run(&mut self, samples: &[f64], drums: bool) -> Result<(Vec<f32>, Vec<u64>), u64> {
        self.dry(samples, drums).map(|y| self.wet(&y))
    }

    /// What a run declines by, or the lane's samples.
    pub fn dry(&mut self, samples: &[f64], drums: bool) -> Result<Vec<f64>, u64> {
        if self.n + samples.len() as u64 > END {
            return Err(6);
        }
        if !samples.iter().all(|x| x.abs() <= 1024.0) {
            return Err(7);
        }
        let mut y = samples.to_vec();
        self.tape.process(&mut y, self.n as usize, &self.automation, drums, &mut Vec::new());
        self.n += samples.len() as u64;
        Ok(y)
    }

    /// The frames and gain counts of the lane's samples.
    pub fn wet(&mut self, y: &[f64]) -> (Vec<f32>, Vec<u64>) {
        let sent: Vec<f64> = y.iter().map(|y| y * self.send).collect();
        let mut sides = [Vec::new(), Vec::new()];
        self.plate.process(&sent, &mut sides);
        let frames: Vec<[f64; 2]> =
            y.iter().enumerate().map(|(i, y)| [y + sides[0][i], y + sides[1][i]]).collect();
        limited(&mut self.ceiling, &frames)
    }

    /// What a latch declines by, or 0.
    pub fn latch(&mut self, [daylight, rain]: [f32; 2], over: [u64; 2]) -> u64 {
        if !within(daylight, 0.0, 1.0) || !within(rain, 0.0, 1.0) || over.iter().any(|&len| len > END) {
            return 8;
        }
        let [grade_ramp, rain_ramp] = over.map(|len| len as usize);
        self.automation.latch(self.n as usize, Controls { daylight, rain }, grade_ramp, rain_ramp);
        0
    }

    pub fn rest(&self) -> bool {
        self.tape.at_rest() && self.plate.at_rest()
    }
}
