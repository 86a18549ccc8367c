//! The part, by the functions of crates/exports. SIGNATURES.md says what each takes. A slice passes as its address and
//! its length (a u64), an array as its address.

use crate::compare::refusals::{FRAMES, KICKS, MARKS, NEEDS, PLATE, STEPS, WAITING, WARP};
use crate::setup::{Numbers, Setup};

unsafe extern "C" {
    pub safe fn goqhari_test_widen(x: f32) -> f64;
    pub safe fn goqhari_test_narrow(x: f64) -> f32;
    pub safe fn goqhari_test_floor(x: f64) -> f64;
    pub safe fn goqhari_test_whole(x: f64) -> u64;
    pub safe fn goqhari_test_sin(v: f64) -> f64;
    pub safe fn goqhari_test_cos(v: f64) -> f64;
    pub safe fn goqhari_test_exp(v: f64) -> f64;
    pub safe fn goqhari_test_ln(x: f64) -> f64;
    pub safe fn goqhari_test_pow(b: f64, p: f64) -> f64;
    pub safe fn goqhari_test_tanh(v: f64) -> f64;
    pub safe fn goqhari_test_sinh(v: f64) -> f64;
    pub safe fn goqhari_test_sin_f32(x: f32) -> f32;
    pub safe fn goqhari_test_pow_f32(b: f32, p: f32) -> f32;
    pub safe fn goqhari_test_flush(v: f64) -> f64;
    pub safe fn goqhari_test_section(section: &mut [f64; 9], x: f64) -> f64;
    pub safe fn goqhari_test_lowpass(hz: f32, first: &mut [f64; 5], second: &mut [f64; 5]);
    pub safe fn goqhari_test_retuned(from: f32, hz: f32, first: &mut [f64; 5], second: &mut [f64; 5]);
    pub safe fn goqhari_test_fixed(which: u64, five: &mut [f64; 5]);
    pub safe fn goqhari_test_onepole(onepole: &mut [f64; 2], x: f64) -> f64;
    pub safe fn goqhari_test_tilt(onepole: &mut [f64; 2], rain: f64, x: f64) -> f64;
    pub safe fn goqhari_test_tilt_lent(onepole: &mut [f64; 2], rain: f64, x: f64) -> f64;
    pub safe fn goqhari_test_pole(damping: bool) -> f64;
    fn goqhari_test_push(ring: *mut f64, len: u64, written: u64, x: f64);
    fn goqhari_test_at(ring: *const f64, len: u64, written: u64, delay: u64) -> f64;
    fn goqhari_test_tap(ring: *const f64, len: u64, written: u64, max_delay: f64, delay: f64) -> f64;
    pub safe fn goqhari_test_ramp_at(ends: &[f64; 2], span: &[u64; 2], db: bool, n: u64) -> f64;
    pub safe fn goqhari_test_daylight(ends: &[f64; 2], span: &[u64; 2], n: u64) -> f64;
    pub safe fn goqhari_test_ramp_toward(ends: &mut [f64; 2], span: &mut [u64; 2], db: bool, n: u64, to: f64, len: u64);
    fn goqhari_test_sweep(
        points: *const u64,
        points_len: u64,
        values: *const f64,
        values_len: u64,
        own: f32,
        n: u64,
    ) -> f32;
    pub safe fn goqhari_test_swept(own: f32, value: f64) -> f32;
    pub safe fn goqhari_test_grade_corner(night: f32, day: f32, t: f64) -> f32;
    pub safe fn goqhari_test_grade_drive(night: f32, day: f32, t: f64) -> f64;
    pub safe fn goqhari_test_sidechain(since: u64) -> f64;
    fn goqhari_test_duck_new(kicks: *const u64, kicks_len: u64, counts: *mut u64, counts_len: u64) -> u64;
    fn goqhari_test_duck(counts: *mut u64, counts_len: u64, cursors: &mut [u64; 3], n: u64, drums: bool) -> f64;
    fn goqhari_test_tape(
        f32s: &[f32; 8],
        f64s: &[f64; 4],
        flags: u64,
        points: *const u64,
        points_len: u64,
        values: *const f64,
        values_len: u64,
        kicks: *const u64,
        kicks_len: u64,
        ring: *mut f64,
        ring_len: u64,
        counts: *mut u64,
        counts_len: u64,
        samples: *mut f64,
        samples_len: u64,
        calls: *const u64,
        calls_len: u64,
    ) -> bool;
    fn goqhari_test_plate(
        part: *mut f64,
        part_len: u64,
        left: *mut f64,
        left_len: u64,
        right: *mut f64,
        right_len: u64,
        calls: *const u64,
        calls_len: u64,
    ) -> bool;
    fn goqhari_test_ceiling(
        samples: *mut f64,
        samples_len: u64,
        counts: *mut u64,
        counts_len: u64,
        left: *const f64,
        left_len: u64,
        right: *const f64,
        right_len: u64,
        frames: *mut f32,
        frames_len: u64,
        gains: *mut u64,
        gains_len: u64,
        calls: *const u64,
        calls_len: u64,
    );
}

pub fn push(ring: &mut [f64], written: u64, x: f64) {
    unsafe { goqhari_test_push(ring.as_mut_ptr(), ring.len() as u64, written, x) }
}

pub fn at(ring: &[f64], written: u64, delay: u64) -> f64 {
    unsafe { goqhari_test_at(ring.as_ptr(), ring.len() as u64, written, delay) }
}

pub fn tap(ring: &[f64], written: u64, max_delay: f64, delay: f64) -> f64 {
    unsafe { goqhari_test_tap(ring.as_ptr(), ring.len() as u64, written, max_delay, delay) }
}

/// The swept corner at n of a lane whose own is `own`.
pub fn sweep(points: &[u64], values: &[f64], own: f32, n: u64) -> f32 {
    unsafe { goqhari_test_sweep(points.as_ptr(), points.len() as u64, values.as_ptr(), values.len() as u64, own, n) }
}

/// A duck's part of the count store, which holds anything before.
pub struct Duck {
    counts: Vec<u64>,
    cursors: [u64; 3],
}

impl Duck {
    pub fn new(kicks: &[u64]) -> Self {
        let mut counts = vec![u64::MAX; KICKS.len + MARKS.len];
        let count = unsafe {
            goqhari_test_duck_new(kicks.as_ptr(), kicks.len() as u64, counts.as_mut_ptr(), counts.len() as u64)
        };
        Self { counts, cursors: [count, 0, 0] }
    }

    /// The gain of sample n.
    pub fn gain(&mut self, n: u64, drums: bool) -> f64 {
        unsafe { goqhari_test_duck(self.counts.as_mut_ptr(), self.counts.len() as u64, &mut self.cursors, n, drums) }
    }
}

/// A call to a lane: a run of so many samples with its drums flag, or a latch of daylight and rain, each over a length.
#[derive(Clone, Copy, Debug)]
pub enum Call {
    Run(u64, bool),
    Latch([f32; 2], [u64; 2]),
}

impl Call {
    pub fn words(&self) -> [u64; 4] {
        match *self {
            Call::Run(len, drums) => [0, len, u64::from(drums), 0],
            Call::Latch([daylight, rain], [grading, darkening]) => {
                [1, u64::from(daylight.to_bits()) << 32 | u64::from(rain.to_bits()), grading, darkening]
            }
        }
    }
}

/// A fresh tape over `samples` by calls. Whether it is at rest then.
pub fn tape(setup: &Setup, samples: &mut [f64], calls: &[Call]) -> bool {
    let Numbers { f32s, f64s, flags } = setup.numbers();
    let (mut ring, mut counts) = (vec![f64::NAN; WARP.len], vec![u64::MAX; KICKS.len + MARKS.len]);
    let calls: Vec<u64> = calls.iter().flat_map(Call::words).collect();
    unsafe {
        goqhari_test_tape(
            &f32s,
            &f64s,
            flags,
            setup.points.as_ptr(),
            setup.points.len() as u64,
            setup.values.as_ptr(),
            setup.values.len() as u64,
            setup.kicks.as_ptr(),
            setup.kicks.len() as u64,
            ring.as_mut_ptr(),
            ring.len() as u64,
            counts.as_mut_ptr(),
            counts.len() as u64,
            samples.as_mut_ptr(),
            samples.len() as u64,
            calls.as_ptr(),
            calls.len() as u64,
        )
    }
}

/// A fresh plate over `x`, in calls of the given lengths: its two sides, and whether it is at rest then.
pub fn plate(x: &[f64], calls: &[u64]) -> ([Vec<f64>; 2], bool) {
    let mut part = vec![f64::NAN; PLATE.len];
    let mut left = x.to_vec();
    let mut right = vec![f64::NAN; x.len()];
    let rest = plate_in(&mut part, &mut left, &mut right, calls);
    ([left, right], rest)
}

/// The same in a lent part: what is sent lies in left, and the sides take its place and right's.
pub fn plate_in(part: &mut [f64], left: &mut [f64], right: &mut [f64], calls: &[u64]) -> bool {
    unsafe {
        goqhari_test_plate(
            part.as_mut_ptr(),
            part.len() as u64,
            left.as_mut_ptr(),
            left.len() as u64,
            right.as_mut_ptr(),
            right.len() as u64,
            calls.as_ptr(),
            calls.len() as u64,
        )
    }
}

/// A fresh ceiling over frames, in calls of the given lengths: what it delivers, and the gain counts.
pub fn ceiling(left: &[f64], right: &[f64], calls: &[u64]) -> (Vec<f32>, Vec<u64>) {
    let (mut samples, mut counts) = (vec![f64::NAN; NEEDS.len + WAITING.len], vec![u64::MAX; FRAMES.len + STEPS.len]);
    let mut frames = vec![0.0; 2 * left.len()];
    let mut gains = vec![0; left.len()];
    ceiling_in((&mut samples, &mut counts), left, right, &mut frames, &mut gains, calls);
    (frames, gains)
}

/// The same in lent parts.
pub fn ceiling_in(
    (samples, counts): (&mut [f64], &mut [u64]),
    left: &[f64],
    right: &[f64],
    frames: &mut [f32],
    gains: &mut [u64],
    calls: &[u64],
) {
    unsafe {
        goqhari_test_ceiling(
            samples.as_mut_ptr(),
            samples.len() as u64,
            counts.as_mut_ptr(),
            counts.len() as u64,
            left.as_ptr(),
            left.len() as u64,
            right.as_ptr(),
            right.len() as u64,
            frames.as_mut_ptr(),
            frames.len() as u64,
            gains.as_mut_ptr(),
            gains.len() as u64,
            calls.as_ptr(),
            calls.len() as u64,
        );
    }
}
