//! Samples to feed: stretches of noise, silence, tones and steps at many levels.

use std::fmt::{Debug, Formatter, Result};
use std::ops::Deref;

use oracle::stream::FLUSH_FLOOR;

use crate::rng::Rng;
use crate::shrink::quieter;

/// Samples, shown by those that are not 0.
#[derive(Clone)]
pub struct Signal(pub Vec<f64>);

/// So many samples are shown.
const SHOWN: usize = 12;

impl Debug for Signal {
    fn fmt(&self, f: &mut Formatter<'_>) -> Result {
        let sounding: Vec<usize> = (0..self.len()).filter(|&i| self[i].to_bits() != 0).collect();
        write!(f, "{} samples, 0 but", self.len())?;
        for &i in sounding.iter().take(SHOWN) {
            write!(f, " [{i}] {:?}", self[i])?;
        }
        if sounding.len() > SHOWN { write!(f, " and {} more", sounding.len() - SHOWN) } else { Ok(()) }
    }
}

impl Deref for Signal {
    type Target = [f64];

    fn deref(&self) -> &[f64] {
        &self.0
    }
}

impl Signal {
    pub fn quieter(&self) -> Vec<Signal> {
        quieter(self).into_iter().map(Signal).collect()
    }
}

/// The flush floor and its neighbours.
pub const AT_FLOOR: [f64; 6] = [
    FLUSH_FLOOR,
    -FLUSH_FLOOR,
    FLUSH_FLOOR.next_down(),
    -FLUSH_FLOOR.next_down(),
    FLUSH_FLOOR.next_up(),
    -FLUSH_FLOOR.next_up(),
];

/// A number as a filter has it, or any, those about the flush floor among them.
pub fn number(rng: &mut Rng) -> f64 {
    match rng.below(8) {
        0 => rng.any_f64(),
        1 => rng.pick(&[0.0, -0.0, 1e-310, f64::NAN, f64::INFINITY]),
        2 => rng.pick(&AT_FLOOR),
        3 => rng.between(-2.0, 2.0) * FLUSH_FLOOR,
        _ => rng.between(-2.0, 2.0),
    }
}

/// `len` samples, each finite and of size at most 1,024.
pub fn drawn(rng: &mut Rng, len: usize) -> Signal {
    let mut out = Vec::with_capacity(len);
    while out.len() < len {
        let stretch = rng.scaled(1.0, 4096.0) as usize;
        let level = rng.pick(&[1.0, 0.3, 1e-3, 1e-9, 1e-18, FLUSH_FLOOR, 1e-21, 1e-300, 4.0, 1024.0]);
        let kind = rng.below(7);
        let step = rng.between(0.0, 3.0);
        for i in 0..stretch {
            out.push(match kind {
                0 | 1 => rng.between(-level, level),
                2 => 0.0,
                3 => level * (step * i as f64).sin(),
                4 => rng.pick(&[level, -level]),
                5 => rng.pick(&[0.0, 0.0, 0.0, -0.0, level]),
                _ => rng.between(-1024.0, 1024.0).trunc() / 1024.0 * level,
            });
        }
    }
    out.truncate(len);
    Signal(out)
}

/// The same, with what only a stage by itself can meet: infinities, NaN and great sizes.
pub fn wild(rng: &mut Rng, len: usize) -> Signal {
    let Signal(mut out) = drawn(rng, len);
    if rng.once_in(4) {
        for _ in 0..rng.below(8) {
            if len > 0 {
                let at = rng.below(len as u64) as usize;
                out[at] = rng.pick(&[f64::NAN, f64::INFINITY, f64::NEG_INFINITY, f64::MAX, 1e300, -1e200, 1e-310]);
            }
        }
    }
    Signal(out)
}

/// Samples in which any plate, and so any strip, comes to rest after a sound.
pub const UNTIL_REST: usize = 900_000;

/// A sound, and silence up to `len` samples.
pub fn fading(rng: &mut Rng, len: usize) -> Signal {
    let sound = rng.scaled(1.0, 4000.0) as usize;
    let Signal(mut out) = drawn(rng, sound);
    out.resize(len, 0.0);
    Signal(out)
}
