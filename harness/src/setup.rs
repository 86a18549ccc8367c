//! Setups drawn within 01's ranges, as the oracle's Tape takes them and as numbers for the part.

use oracle::Controls;
use oracle::stream::lanes::{Automation, Duck, Grade, Sweep, Tape, Tone};
use oracle::synth::{PadTone, SIDECHAIN_ATTACK_S, SIDECHAIN_DB, SIDECHAIN_RELEASE_S};

use crate::rng::Rng;
use crate::shrink::{Shrink, each_without, halves};

pub const RATE: u32 = 44_100;

#[derive(Clone, Debug)]
pub struct Setup {
    /// A fixed tone has the first corner and `drive`.
    pub graded: bool,
    pub corners: [f32; 2],
    pub drives: [f32; 2],
    pub drive: f64,
    /// Swell rate and depth.
    pub pad: Option<[f32; 2]>,
    pub darkens: bool,
    pub gains: [f64; 2],
    pub ducked: bool,
    pub daylight: f32,
    pub rain: f32,
    pub send: f64,
    pub points: Vec<u64>,
    pub values: Vec<f64>,
    pub kicks: Vec<u64>,
}

/// A setup's numbers for the part: SIGNATURES.md has their order.
pub struct Numbers {
    pub f32s: [f32; 8],
    pub f64s: [f64; 4],
    pub flags: u64,
}

fn corner(rng: &mut Rng) -> f32 {
    match rng.below(8) {
        0 => 20.0,
        1 => 20_000.0,
        2 => 800.0,
        3 => f32::from_bits(800f32.to_bits() + 1),
        4 => rng.between(20.0, 20_000.0) as f32,
        _ => rng.scaled(20.0, 20_000.0) as f32,
    }
}

fn drive(rng: &mut Rng) -> f64 {
    match rng.below(4) {
        0 => rng.pick(&[0.1, 8.0, 1.6, 1.0]),
        _ => rng.between(0.1, 8.0),
    }
}

pub fn control(rng: &mut Rng) -> f32 {
    match rng.below(4) {
        0 => 0.0,
        1 => 1.0,
        2 => rng.pick(&[-0.0, 0.5, 1e-40, f32::MIN_POSITIVE, 0.99999994]),
        _ => rng.unit() as f32,
    }
}

fn gain(rng: &mut Rng) -> f64 {
    match rng.below(4) {
        0 => rng.pick(&[0.0, 1.0, 16.0, -0.0]),
        1 => rng.between(0.0, 16.0),
        _ => rng.between(0.2, 3.0),
    }
}

/// Positions that never fall, the most of them among the first `span` samples; after the first, once in `ties` one is tied with the one before it.
fn positions(rng: &mut Rng, most: u64, span: u64, ties: u64) -> Vec<u64> {
    let many = if rng.once_in(8) { most } else { rng.below(12.min(most) + 1) };
    let mut at: Vec<u64> = (0..many)
        .map(|_| match rng.below(12) {
            0 => 1 << 32,
            1 => rng.below(1 << 32),
            2 => rng.below(span / 32 + 1) * 32,
            _ => rng.below(span + 1),
        })
        .collect();
    at.sort_unstable();
    for i in 1..at.len() {
        if rng.once_in(ties) {
            at[i] = at[i - 1];
        }
    }
    at
}

/// 02's E8: points on one position count as one that bears their lowest value. A list without ties is its own.
pub fn merged(points: &[u64], values: &[f64]) -> Vec<(usize, f64)> {
    let given: Vec<_> = points.iter().map(|&at| at as usize).zip(values.iter().copied()).collect();
    let lowest = |tied: &[(usize, f64)]| tied.iter().map(|&(_, value)| value).fold(f64::INFINITY, f64::min);
    given.chunk_by(|a, b| a.0 == b.0).map(|tied| (tied[0].0, lowest(tied))).collect()
}

impl Setup {
    /// A setup whose points and kicks matter to the first `span` samples.
    pub fn drawn(rng: &mut Rng, span: u64) -> Self {
        let ties = rng.pick(&[8, 8, 8, 2, 2, 2, 2, 1]);
        let points = if rng.flag() { positions(rng, 256, span, ties) } else { Vec::new() };
        let mut value = |_| if rng.once_in(3) { rng.pick(&[0.0, 1.0, 0.5, -0.0]) } else { rng.unit() };
        let values = points.iter().map(&mut value).collect();
        Self {
            graded: rng.flag(),
            corners: [corner(rng), corner(rng)],
            drives: [drive(rng) as f32, drive(rng) as f32].map(|d| d.clamp(0.1, 8.0)),
            drive: drive(rng),
            pad: rng.flag().then(|| [rng.pick(&[0.0, 0.1, 20.0, 7.3]), control(rng)]),
            darkens: rng.flag(),
            gains: [gain(rng), gain(rng)],
            ducked: rng.flag(),
            daylight: control(rng),
            rain: control(rng),
            send: f64::from(control(rng)),
            points,
            values,
            kicks: if rng.flag() { positions(rng, 1024, span, 8) } else { Vec::new() },
        }
    }

    pub fn numbers(&self) -> Numbers {
        let [rate, depth] = self.pad.unwrap_or([0.0; 2]);
        let [c, d] = [self.corners, self.drives];
        let flag = |set: bool, bit: u64| if set { bit } else { 0 };
        Numbers {
            f32s: [c[0], c[1], d[0], d[1], rate, depth, self.daylight, self.rain],
            f64s: [self.drive, self.gains[0], self.gains[1], self.send],
            flags: flag(self.graded, 1) | flag(self.pad.is_some(), 2) | flag(self.darkens, 4) | flag(self.ducked, 8),
        }
    }

    pub fn automation(&self) -> Automation {
        let points = merged(&self.points, &self.values);
        let sweep = (!points.is_empty()).then(|| Sweep::new(points));
        Automation::new(Controls { daylight: self.daylight, rain: self.rain }, sweep)
    }

    /// Whether within `len` samples a tie may change what the Rust makes of the list as given: on the way to it, where the Rust takes
    /// the tie's first point, and from it on, where it takes the last.
    pub fn ties(&self, len: u64) -> [bool; 2] {
        let open = self.corners[0] > 800.0 && (!self.graded || self.corners[1] > 800.0);
        let given: Vec<_> = self.points.iter().copied().zip(self.values.iter().copied()).collect();
        let tied: Vec<_> = given.chunk_by(|a, b| a.0 == b.0).collect();
        let lowest: Vec<_> = merged(&self.points, &self.values).into_iter().map(|(_, value)| value).collect();
        let at = |i: usize| tied[i][0].0;
        let reached = |i: usize| at(i) < len && tied[i].last().is_some_and(|last| last.1 != lowest[i]);
        let neared = |i: usize| {
            let block = (at(i - 1) / 32 + 1) * 32;
            block < len && block < at(i) && tied[i][0].1 != lowest[i]
        };
        [open && (1..tied.len()).any(neared), open && (0..tied.len()).any(reached)]
    }

    /// `Tape::new` under these at a rate, as Chain calls it.
    pub fn tape(&self, automation: &Automation, rate: u32) -> Tape {
        let own = if self.graded {
            Tone::Graded(Grade::new(self.corners, self.drives))
        } else {
            Tone::Fixed { corner_hz: self.corners[0], drive: self.drive }
        };
        let pad = self.pad.map(|[swell_hz, swell_depth]| PadTone {
            cutoff_hz: self.corners[0],
            swell_hz,
            swell_depth,
            peak: 1.0,
        });
        let duck = self.ducked.then(|| {
            let kicks: Vec<usize> = self.kicks.iter().map(|&kick| kick as usize).collect();
            Duck::new(&kicks, SIDECHAIN_DB, SIDECHAIN_ATTACK_S, SIDECHAIN_RELEASE_S, rate)
        });
        Tape::new(own, pad, self.darkens, self.gains, duck, automation, rate)
    }
}

impl Shrink for Setup {
    fn smaller(&self) -> Vec<Self> {
        let mut out = Vec::new();
        let mut plainer = |change: &dyn Fn(&mut Setup)| {
            let mut s = self.clone();
            change(&mut s);
            out.push(s);
        };
        plainer(&|s| s.pad = None);
        plainer(&|s| s.graded = false);
        plainer(&|s| s.darkens = false);
        plainer(&|s| s.ducked = false);
        plainer(&|s| s.gains = [1.0; 2]);
        plainer(&|s| s.drive = 1.0);
        plainer(&|s| s.drives = [1.0; 2]);
        plainer(&|s| s.corners = [8000.0; 2]);
        plainer(&|s| s.send = 0.0);
        plainer(&|s| s.daylight = 0.0);
        plainer(&|s| s.rain = 0.0);
        plainer(&|s| (s.points, s.values) = (Vec::new(), Vec::new()));
        for kicks in halves(&self.kicks) {
            out.push(Setup { kicks, ..self.clone() });
        }
        let pairs: Vec<(u64, f64)> = self.points.iter().copied().zip(self.values.iter().copied()).collect();
        for kept in each_without(&pairs) {
            let (points, values) = kept.into_iter().unzip();
            out.push(Setup { points, values, ..self.clone() });
        }
        out
    }
}
