//! Goqhari from Rust: a tape lane, a plate and a look-ahead ceiling, mono in, stereo out, at 44,100 Hz.
//!
//! The part is proved and linked from libgoqhari.a; this wrapper gives it types. No standard library, no allocation, no
//! dependency: the caller lends two stores, and a [`Strip`] borrows them while it lives. That nobody else writes to them
//! between calls, which the part's theorem asks, is what the borrow says.
//!
//! The floating-point mode is the caller's duty: arithmetic rounds to nearest, and subnormal numbers are neither flushed to
//! zero nor read as zero, as Rust itself assumes. Many audio hosts set both (FTZ and DAZ of MXCSR) in the threads that they
//! call from; with them some ducked signals, rest answers and refusals differ.
//!
//! ```no_run
//! use goqhari::{STORE_COUNTS, STORE_NUMBERS, Setup, Strip};
//!
//! let (mut store, mut counts) = (vec![0.0; STORE_NUMBERS], vec![0; STORE_COUNTS]);
//! let mut strip = Strip::open(&Setup::default(), &mut store, &mut counts)?;
//! let (mut frames, mut gains) = ([[0.0; 2]; 64], [0; 64]);
//! strip.run(&[0.25; 64], true, &mut frames, &mut gains)?;
//! # Ok::<(), goqhari::Refusal>(())
//! ```
#![no_std]
#![warn(missing_docs)]

pub mod raw;

use core::fmt;

#[link(name = "goqhari", kind = "static")]
unsafe extern "C" {}

/// Samples a second.
pub const RATE: u32 = 44_100;
/// How many samples late a frame is delivered: the ceiling looks that far ahead.
pub const LATENCY: usize = 220;
/// The least length of the sample store.
pub const STORE_NUMBERS: usize = 49_152;
/// The least length of the count store.
pub const STORE_COUNTS: usize = 4_096;
/// No position passes this: 27 hours from the strip's opening.
pub const MAX_POSITION: u64 = 1 << 32;
/// The gain count at which the ceiling leaves a frame as it is.
pub const GAIN_UNIT: u64 = 221 << 40;
/// The ceiling, -1 dBFS: no side that is delivered is larger, a NaN apart. Before the clamp none is larger by more than one
/// part in 2^51 where it comes from a mixed frame that is finite and at most 2^100 (docs/DATASHEET.md, 'before the clamp').
pub const CEILING: f32 = 0.891_250_9;

/// The f64 of a packed strip, GOQHARI_NUMBERS of the header.
pub const NUMBERS: usize = 87;
/// The u64 of a packed strip, GOQHARI_WORDS of the header.
pub const WORDS: usize = 19;

/// The ceiling's gain that a count of [`Strip::run`] stands for: 1 at [`GAIN_UNIT`].
pub fn gain(count: u64) -> f64 {
    count as f64 / GAIN_UNIT as f64
}

/// The lane's tone: the corner of its lowpass, 20 to 20,000 Hz, and the drive of its saturation, 0.1 to 8.
#[derive(Clone, Copy, Debug, PartialEq)]
pub enum Tone {
    /// One corner and one drive.
    Fixed {
        /// The corner in Hz.
        corner: f32,
        /// The drive.
        drive: f64,
    },
    /// Between night (daylight 0) and day (daylight 1): the corner by octaves, the drive evenly.
    Graded {
        /// The corners in Hz, night's and day's.
        corners: [f32; 2],
        /// The drives, night's and day's.
        drives: [f32; 2],
    },
}

/// A slow swell of the level into the tape.
#[derive(Clone, Copy, Debug, PartialEq)]
pub struct Pad {
    /// Swells a second, 0 to 20.
    pub rate: f32,
    /// How deep, 0 to 1.
    pub depth: f32,
}

/// What a strip is opened with. The lists are read at opening and kept in the stores.
#[derive(Clone, Copy, Debug, PartialEq)]
pub struct Setup<'a> {
    /// The lane's corner and drive.
    pub tone: Tone,
    /// The swell, if there is one.
    pub pad: Option<Pad>,
    /// Whether rain darkens the lane's tilt.
    pub darkened: bool,
    /// The gain into the tape, 0 to 16.
    pub gain_in: f64,
    /// The gain out of the lane, 0 to 16.
    pub gain_out: f64,
    /// Whether the lane ducks under the kicks.
    pub ducked: bool,
    /// The daylight that the strip starts at, 0 to 1.
    pub daylight: f32,
    /// The rain that the strip starts at, 0 to 1.
    pub rain: f32,
    /// How much of the lane is sent to the plate, 0 to 1.
    pub send: f64,
    /// The sweep's positions, at most 256, never falling. Points on one position count as one with the lowest of their values.
    pub positions: &'a [u64],
    /// The sweep's values at those, 0 (closed to 800 Hz) to 1 (open).
    pub values: &'a [f64],
    /// The kicks' positions, at most 1,024, never falling.
    pub kicks: &'a [u64],
}

/// The keys' lane of the Rust that the part is ported from, under its default weather: graded, ducked and darkened by
/// rain, with its drive of 1.6 and its send of -0.3 dB, by day and dry. Its corners are in no published file; 2,000 Hz
/// by night is two octaves below day's 8,000 Hz, at which the tape's own rolloff at 6,500 Hz has the say.
impl Default for Setup<'_> {
    fn default() -> Self {
        Self {
            tone: Tone::Graded { corners: [2_000.0, 8_000.0], drives: [1.6; 2] },
            pad: None,
            darkened: true,
            gain_in: 1.0,
            gain_out: 1.0,
            ducked: true,
            daylight: 1.0,
            rain: 0.0,
            send: 0.966,
            positions: &[],
            values: &[],
            kicks: &[],
        }
    }
}

/// Where the weather goes from here on. Each control moves evenly over its length in samples, at most 2^32; one that is
/// on its way there already goes on as it was.
#[derive(Clone, Copy, Debug, PartialEq)]
pub struct Latch {
    /// The daylight to reach, 0 (night) to 1 (day).
    pub daylight: f32,
    /// Over how many samples the daylight gets there.
    pub grading: u64,
    /// The rain to reach, 0 to 1.
    pub rain: f32,
    /// Over how many samples the rain gets there.
    pub darkening: u64,
}

/// Why a call was declined. A declined call changes nothing.
#[derive(Clone, Copy, Debug, PartialEq, Eq, Hash)]
#[repr(u64)]
pub enum Refusal {
    /// A lent store is too short.
    StoreShort = 1,
    /// A number of the setup is NaN or outside its range.
    BadSetup = 2,
    /// A list is too long, falls, has positions and values unequal in number, or something outside its range.
    BadList = 3,
    /// The strip is malformed. A [`Strip`] never is.
    BadStrip = 4,
    /// The frames or the gains are not as many as the samples.
    BadOutput = 5,
    /// The run would pass [`MAX_POSITION`].
    PastEnd = 6,
    /// A sample is not finite, or larger than 1,024.
    BadSample = 7,
    /// A control is NaN or outside 0 to 1, or a length exceeds 2^32.
    BadControl = 8,
}

impl Refusal {
    /// The number that the library answers.
    pub fn number(self) -> u64 {
        self as u64
    }
}

impl fmt::Display for Refusal {
    fn fmt(&self, f: &mut fmt::Formatter<'_>) -> fmt::Result {
        f.write_str(match self {
            Self::StoreShort => "a lent store is too short",
            Self::BadSetup => "a number of the setup is outside its range",
            Self::BadList => "a list is too long, falls, or has something outside its range",
            Self::BadStrip => "the strip is malformed",
            Self::BadOutput => "the frames or the gains are not as many as the samples",
            Self::PastEnd => "the run would pass position 2^32",
            Self::BadSample => "a sample is not finite, or larger than 1,024",
            Self::BadControl => "a control or a length is outside its range",
        })
    }
}

impl core::error::Error for Refusal {}

fn answered(number: u64) -> Result<(), Refusal> {
    Err(match number {
        0 => return Ok(()),
        1 => Refusal::StoreShort,
        2 => Refusal::BadSetup,
        3 => Refusal::BadList,
        4 => Refusal::BadStrip,
        5 => Refusal::BadOutput,
        6 => Refusal::PastEnd,
        7 => Refusal::BadSample,
        8 => Refusal::BadControl,
        _ => unreachable!("the contracts give no other number"),
    })
}

/// A strip that was opened, with the stores that it works in.
pub struct Strip<'a> {
    numbers: [f64; NUMBERS],
    words: [u64; WORDS],
    store: &'a mut [f64],
    counts: &'a mut [u64],
}

impl<'a> Strip<'a> {
    /// Opens a strip at position 0 in stores of at least [`STORE_NUMBERS`] and [`STORE_COUNTS`] elements, which may hold
    /// anything. What lies beyond those lengths is never touched.
    pub fn open(setup: &Setup<'_>, store: &'a mut [f64], counts: &'a mut [u64]) -> Result<Self, Refusal> {
        let (singles, doubles, flags) = packed(setup);
        let mut strip = Self { numbers: [0.0; NUMBERS], words: [0; WORDS], store, counts };
        answered(raw::open(
            &singles,
            &doubles,
            flags,
            setup.positions,
            setup.values,
            setup.kicks,
            &mut strip.numbers,
            &mut strip.words,
            strip.store,
            strip.counts,
        ))?;
        Ok(strip)
    }

    /// Plays samples: a frame (left, right) and a gain count for each, the frames [`LATENCY`] late. `drums` says whether
    /// the kicks that fall within duck the lane.
    pub fn run(
        &mut self,
        samples: &[f64],
        drums: bool,
        frames: &mut [[f32; 2]],
        gains: &mut [u64],
    ) -> Result<(), Refusal> {
        answered(raw::run(
            &mut self.numbers,
            &mut self.words,
            samples,
            drums.into(),
            frames.as_flattened_mut(),
            gains,
            self.store,
            self.counts,
        ))
    }

    /// Sets where the weather goes from the position reached.
    pub fn latch(&mut self, to: Latch) -> Result<(), Refusal> {
        let Latch { daylight, grading, rain, darkening } = to;
        let (numbers, words) = (&mut self.numbers, &mut self.words);
        answered(raw::latch(numbers, words, daylight, grading, rain, darkening, self.store, self.counts))
    }

    /// Whether the lane and the plate hold only zeros. The last [`LATENCY`] frames may still wait in the ceiling.
    pub fn rest(&self) -> Result<bool, Refusal> {
        let mut rests = [0];
        answered(raw::rest(&self.numbers, &self.words, &mut rests, self.store, self.counts))?;
        Ok(rests[0] != 0)
    }
}

impl fmt::Debug for Strip<'_> {
    fn fmt(&self, f: &mut fmt::Formatter<'_>) -> fmt::Result {
        f.debug_struct("Strip").finish_non_exhaustive()
    }
}

/// A setup's numbers in the order that the library takes them. What a tone or a pad does not name is 0, and not looked at.
fn packed(setup: &Setup<'_>) -> ([f32; 8], [f64; 4], u64) {
    let (graded, [night, day], [dark, bright], drive) = match setup.tone {
        Tone::Fixed { corner, drive } => (false, [corner, 0.0], [0.0; 2], drive),
        Tone::Graded { corners, drives } => (true, corners, drives, 0.0),
    };
    let Pad { rate, depth } = setup.pad.unwrap_or(Pad { rate: 0.0, depth: 0.0 });
    let flags = [graded, setup.pad.is_some(), setup.darkened, setup.ducked];
    (
        [night, day, dark, bright, rate, depth, setup.daylight, setup.rain],
        [drive, setup.gain_in, setup.gain_out, setup.send],
        flags.iter().rev().fold(0, |word, &flag| 2 * word + u64::from(flag)),
    )
}
