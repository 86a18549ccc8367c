//! What the examples share: WAV files, pictures, and samples through a strip.
#![allow(dead_code)]

pub mod svg;
pub mod wav;

use goqhari::{LATENCY, Refusal, Strip};

/// Everything that a strip has given, sample by sample.
#[derive(Default)]
pub struct Heard {
    pub frames: Vec<[f32; 2]>,
    pub gains: Vec<u64>,
}

impl Heard {
    /// Runs samples through the strip, and keeps what it gives behind what it gave before.
    pub fn run(&mut self, strip: &mut Strip<'_>, samples: &[f64], drums: bool) -> Result<(), Refusal> {
        let from = self.gains.len();
        self.frames.resize(from + samples.len(), [0.0; 2]);
        self.gains.resize(from + samples.len(), 0);
        strip.run(samples, drums, &mut self.frames[from..], &mut self.gains[from..])
    }

    /// Runs silence until the strip rests, and as much more as waits in the ceiling. Where it rested.
    pub fn ring_out(&mut self, strip: &mut Strip<'_>) -> Result<usize, Refusal> {
        while !strip.rest()? {
            self.run(strip, &[0.0; 512], true)?;
        }
        let rested = self.gains.len();
        self.run(strip, &[0.0; LATENCY], true)?;
        Ok(rested)
    }

    /// The frames where their samples stood: the first are silence from before the strip's opening.
    pub fn in_time(&self) -> &[[f32; 2]] {
        &self.frames[LATENCY.min(self.frames.len())..]
    }
}

/// An amplitude in decibels.
pub fn db(amplitude: f64) -> f64 {
    20.0 * amplitude.log10()
}
