//! The ceiling: a fresh one over frames, call by call, and 02's E11: its sides before they are narrowed and clamped.

use oracle::stream::master::Ceiling;

use super::lists::{self, List, Met};
use crate::part;
use crate::report::{Budget, Report};
use crate::rng::Rng;
use crate::setup::RATE;
use crate::shrink::{Shrink, halves};
use crate::signal::{self, Signal};

/// The frames by which the ceiling is late.
const AHEAD: usize = 220;

/// The gain count of 1.
const GAIN_OF_ONE: u64 = 221 << 40;

/// E11's other rate, of which the Rust alone is looked at.
const OTHER_RATE: u32 = 48_000;
const OTHER_AHEAD: usize = 240;

/// E11's "finite and at most 2^100 in size".
const TWO_TO_100: f64 = (1u128 << 100) as f64;

/// A side that comes out one f64 above the limit, before it is narrowed and clamped.
const PASSING: f64 = 1.1362060345226561;

#[derive(Clone, Debug)]
struct Case {
    left: Signal,
    right: Signal,
    calls: Vec<u64>,
}

/// A frame through a ceiling: the late one's sides before they are narrowed and clamped, and the gain count.
fn multiplied(ceiling: &mut Ceiling, frame: [f64; 2]) -> ([f64; 2], u64) {
    let mut one = [frame];
    ceiling.limit_heard(&mut one, |_| ());
    (one[0], ceiling.sum())
}

/// Frames through a ceiling, one at a time, so that each one's gain count is seen.
pub fn limited(ceiling: &mut Ceiling, frames: &[[f64; 2]]) -> (Vec<f32>, Vec<u64>) {
    let mut out = Vec::new();
    let mut gains = Vec::new();
    for &frame in frames {
        let (sides, count) = multiplied(ceiling, frame);
        out.extend(sides.map(|side| ceiling.clamp(side)));
        gains.push(count);
    }
    (out, gains)
}

fn limit() -> f64 {
    f64::from(Ceiling::new(RATE).clamp(f64::INFINITY))
}

/// A level whose need is a whole number of steps, so that the gain is the need itself, and whose product with it passes the limit.
fn passing(rng: &mut Rng, limit: f64) -> f64 {
    loop {
        let need = rng.within(1 << 20, 1 << 40) as f64 / (1u64 << 40) as f64;
        let level = limit / need;
        if limit / level == need && level * need > limit {
            return level;
        }
    }
}

/// A steady tone, or a level held, whose peaks stand at the limit, one f64 to either side of it, far above, or where they pass it.
fn steady(rng: &mut Rng, len: usize) -> Signal {
    let limit = limit();
    let passing = passing(rng, limit);
    let level = rng.pick(&[limit, limit.next_up(), limit.next_down(), 2.0 * limit, TWO_TO_100, passing, passing]);
    let turn = rng.between(0.0, 3.0);
    let step = rng.pick(&[0.0, std::f64::consts::PI, turn]);
    Signal((0..len).map(|i| level * (step * i as f64).cos()).collect())
}

/// Sizes within three f64 of the limit, and among them spikes of up to 2^100. Those above 2^40 need a gain of less than a step, and silence what follows.
fn spiked(rng: &mut Rng, len: usize) -> Signal {
    let limit = limit();
    let apart = rng.scaled(2.0, 4000.0) as u64;
    let most = rng.pick(&[4.0, (1u64 << 40) as f64, TWO_TO_100]);
    let size = |rng: &mut Rng| if rng.flag() { rng.scaled(1.0, most) } else { most };
    let mut side = |_| {
        let x = if rng.once_in(apart) { size(rng) } else { rng.near(limit) };
        rng.pick(&[x, -x])
    };
    Signal((0..len).map(&mut side).collect())
}

/// A size that is finite as digits and exponent: exactly digits · 2^exponent.
fn exactly(x: f64) -> (u128, i32) {
    let field = (x.to_bits() >> 52 & 0x7ff) as i32;
    let digits = u128::from(x.to_bits() & ((1 << 52) - 1));
    if field == 0 { (digits, -1074) } else { (digits | 1 << 52, field - 1075) }
}

/// E11's "|side| · 2^51 ≤ limit · (2^51 + 1)", in whole numbers.
fn within(side: f64, limit: f64) -> bool {
    let (s, e) = exactly(side);
    let (l, f) = exactly(limit);
    let (size, most) = (s << 51, l * ((1 << 51) + 1));
    let up = (e - f).max(0) as u32;
    let down = (f - e).clamp(0, 127) as u32;
    side.is_finite() && size.leading_zeros() >= up && (size << up).div_ceil(1 << down) <= most
}

/// The frames that the delivered ones come from: silence, and then those that came in.
fn late(frames: &[[f64; 2]], ahead: usize) -> Vec<[f64; 2]> {
    std::iter::repeat_n([0.0; 2], ahead).chain(frames.iter().copied()).take(frames.len()).collect()
}

/// Where a side first passes E11's bound, or would be altered by the clamp, of those that come from a frame that is finite and at most 2^100.
fn beyond(late: &[[f64; 2]], sides: &[[f64; 2]]) -> Option<String> {
    let limit = limit();
    let moderate = |frame: &[f64; 2]| frame.iter().all(|side| side.abs() <= TWO_TO_100);
    let held = |side: f64| within(side, limit) && f64::from(side as f32).abs() <= limit;
    let passes = |(frame, sides): &(&[f64; 2], &[f64; 2])| moderate(frame) && !sides.iter().all(|&side| held(side));
    let (at, (frame, sides)) = late.iter().zip(sides).enumerate().find(|(_, one)| passes(one))?;
    Some(format!("before the clamp {at}: {sides:?} of {frame:?} passes 02's bound"))
}

impl Case {
    fn frames(&self) -> Vec<[f64; 2]> {
        self.left.iter().zip(self.right.iter()).map(|(&l, &r)| [l, r]).collect()
    }
}

/// What the Rust makes of frames at a rate: each one's sides before they are narrowed and clamped, and the gain counts.
fn oracle(frames: &[[f64; 2]], rate: u32) -> (Vec<[f64; 2]>, Vec<u64>) {
    let mut ceiling = Ceiling::new(rate);
    frames.iter().map(|&frame| multiplied(&mut ceiling, frame)).unzip()
}

impl List for Case {
    const MATTERS: &[&str] = &[
        "a gain below 1",
        "a release",
        "a NaN",
        "more frames than the window",
        "a size of 2^100",
        "one f64 above the limit",
        "one f64 below it",
        "before the clamp, above the limit",
    ];

    fn drawn(rng: &mut Rng) -> Self {
        let len = rng.scaled(1.0, 8000.0) as usize;
        let left = match rng.below(4) {
            0 => steady(rng, len),
            1 => spiked(rng, len),
            _ => signal::wild(rng, len),
        };
        let right =
            if rng.flag() { Signal(left.iter().map(|x| x * 0.5).collect()) } else { signal::wild(rng, len) };
        Case { left, right, calls: lists::sizes(rng, len) }
    }

    fn samples(&self) -> u64 {
        self.left.len() as u64
    }

    fn difference(&self, met: &mut Met) -> Option<String> {
        let (our_frames, our_gains) = part::ceiling(&self.left, &self.right, &self.calls);
        let all = self.frames();
        let (sides, gains) = oracle(&all, RATE);
        let clamping = Ceiling::new(RATE);
        let frames: Vec<f32> = sides.iter().flatten().map(|&side| clamping.clamp(side)).collect();
        let behind = late(&all, AHEAD);
        let gain = |count: u64| count as f64 / GAIN_OF_ONE as f64;
        let by_01: Vec<f64> = behind.iter().zip(&our_gains).flat_map(|(f, &c)| f.map(|side| side * gain(c))).collect();
        let limit = limit();
        met.note("a gain below 1", gains.iter().any(|&count| count < GAIN_OF_ONE));
        met.note("a release", gains.windows(2).any(|two| two[0] < two[1]));
        met.note("a NaN", frames.iter().any(|side| side.is_nan()));
        met.note("more frames than the window", gains.len() > 882);
        met.note("a size of 2^100", self.left.contains(&TWO_TO_100));
        met.note("one f64 above the limit", self.left.contains(&limit.next_up()));
        met.note("one f64 below it", self.left.contains(&limit.next_down()));
        met.note("before the clamp, above the limit", sides.iter().flatten().any(|side| side.abs() > limit));
        lists::first("gain count", &our_gains, &gains)
            .or_else(|| lists::first("side before the clamp, by 01 and the part's count,", &by_01, sides.as_flattened()))
            .or_else(|| lists::first("side", &our_frames, &frames))
            .or_else(|| beyond(&behind, &sides))
            .or_else(|| beyond(&late(&all, OTHER_AHEAD), &oracle(&all, OTHER_RATE).0))
    }
}

impl Shrink for Case {
    fn smaller(&self) -> Vec<Self> {
        let calls = vec![self.left.len() as u64];
        if self.calls != calls {
            return vec![Case { calls, ..self.clone() }];
        }
        let frames: Vec<(f64, f64)> = self.left.iter().copied().zip(self.right.iter().copied()).collect();
        let mut out: Vec<Self> = halves(&frames)
            .into_iter()
            .map(|kept| {
                let (left, right) = kept.into_iter().unzip();
                Case { left: Signal(left), right: Signal(right), calls: self.calls.clone() }
            })
            .collect();
        for left in self.left.quieter().into_iter().filter(|left| left.len() == self.left.len()) {
            out.push(Case { left, ..self.clone() });
        }
        for right in self.right.quieter().into_iter().filter(|right| right.len() == self.right.len()) {
            out.push(Case { right, ..self.clone() });
        }
        out
    }
}

/// That E11's bound is needed: at either rate the Rust delivers a side above the limit itself.
fn shown(ahead: usize, rate: u32) -> bool {
    let mut frames = vec![[0.0; 2]; ahead + 1];
    frames[0][1] = PASSING;
    oracle(&frames, rate).0[ahead][1] > limit()
}

pub fn run(rng: &mut Rng, budget: Budget) -> Report {
    let mut report = lists::run::<Case>(rng, budget);
    if !shown(AHEAD, RATE) || !shown(OTHER_AHEAD, OTHER_RATE) {
        report.differs(1, format!("a frame (0, {PASSING:?}) and silence: no side above the limit"));
    }
    report
}
