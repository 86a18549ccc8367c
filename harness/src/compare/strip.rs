//! Lists of calls to the library: open, runs, latches and rests, accepted and declined, in one strip and one pair of stores.

use super::lists::{self, List, Met};
use super::tape::length;
use crate::library::{COUNTS, Memory, STORE};
use crate::report::{Budget, Report};
use crate::rng::Rng;
use crate::setup::{RATE, Setup, control};
use crate::shrink::{Shrink, each_without};
use crate::signal::{self, Signal};
use crate::strip::{Strip, why_not};

/// What a list of calls wrote.
#[derive(Clone, Debug)]
struct Written {
    frames: Vec<f32>,
    gains: Vec<u64>,
    answers: Vec<u64>,
}

/// A call, and what is wrong with what is lent to it: bits 1 and 2, the frame and the count output one element short;
/// bits 4 and 8, a store one element short; bits 16 and 32, the outputs one element long.
#[derive(Clone, Debug)]
pub enum Call {
    Run { samples: Signal, drums: bool, wrong: u64 },
    Latch { to: [f32; 2], over: [u64; 2], wrong: u64 },
    Rest { wrong: u64 },
}

/// Elements lent past the lengths that 01 names, which no call may touch.
#[derive(Clone, Debug)]
pub struct Case {
    pub setup: Setup,
    pub beyond: usize,
    pub calls: Vec<Call>,
}

/// What an output holds before any call.
const NO_FRAME: f32 = -7.0;
const NO_GAIN: u64 = 77;
const NO_ANSWER: u64 = 99;
/// Rest's answers are 100 and 101, so that no number is taken for one.
const REST: u64 = 100;

impl Call {
    fn wrong(&self) -> u64 {
        match self {
            Call::Run { wrong, .. } | Call::Latch { wrong, .. } | Call::Rest { wrong } => *wrong,
        }
    }

    pub fn samples(&self) -> &[f64] {
        if let Call::Run { samples, .. } = self { samples } else { &[] }
    }

    /// A call, declined once in some.
    pub fn drawn(rng: &mut Rng) -> Self {
        let wrong = if rng.once_in(12) { 1 << rng.below(6) } else { 0 };
        match rng.below(6) {
            0 => Call::Rest { wrong: wrong & 12 },
            1 | 2 => {
                let mut to = [control(rng), control(rng)];
                let mut over = [length(rng), length(rng)];
                if rng.once_in(8) {
                    to[rng.below(2) as usize] = rng.pick(&[f32::NAN, -1e-45, 1.0000001, f32::INFINITY]);
                }
                if rng.once_in(12) {
                    over[rng.below(2) as usize] = rng.pick(&[(1 << 32) + 1, u64::MAX]);
                }
                Call::Latch { to, over, wrong: wrong & 12 }
            }
            _ => {
                let len = rng.scaled(1.0, 4000.0) as usize - 1;
                let Signal(mut samples) = signal::drawn(rng, len);
                if len > 0 && rng.once_in(12) {
                    let at = rng.below(len as u64) as usize;
                    samples[at] = rng.pick(&[f64::NAN, f64::INFINITY, 1024.0000000000002, -1025.0]);
                }
                Call::Run { samples: Signal(samples), drums: rng.flag(), wrong }
            }
        }
    }
}

impl Case {
    fn outputs(&self) -> Written {
        let many: usize = self.calls.iter().map(|call| call.samples().len()).sum();
        Written {
            frames: vec![NO_FRAME; 2 * many + 1],
            gains: vec![NO_GAIN; many + 1],
            answers: vec![NO_ANSWER; self.calls.len() + 1],
        }
    }

    /// What the library wrote, and whether the elements beyond are as they were.
    fn ours(&self) -> (Written, bool) {
        let mut memory = Memory::new(self.beyond);
        let mut out = self.outputs();
        out.answers[0] = memory.whole().open(&self.setup);
        if out.answers[0] != 0 {
            return (out, memory.kept_beyond());
        }
        let mut at = 0;
        for (i, call) in self.calls.iter().enumerate() {
            let (len, wrong) = (call.samples().len(), call.wrong());
            let mut lengths = memory.lengths();
            if wrong & 4 != 0 {
                lengths[2] = STORE - 1;
            }
            if wrong & 8 != 0 {
                lengths[3] = COUNTS - 1;
            }
            let lent = memory.lend(lengths);
            out.answers[i + 1] = match call {
                Call::Run { samples, drums, .. } => {
                    let end = |elements: usize, short: u64, long: u64| {
                        elements + usize::from(wrong & long != 0) - usize::from(wrong & short != 0 && elements > 0)
                    };
                    let frames = &mut out.frames[2 * at..][..end(2 * len, 1, 16)];
                    let gains = &mut out.gains[at..][..end(len, 2, 32)];
                    lent.run(samples, u64::from(*drums), frames, gains)
                }
                Call::Latch { to, over, .. } => lent.latch(*to, *over),
                Call::Rest { .. } => {
                    let mut rests = [NO_ANSWER];
                    match lent.rest(&mut rests) {
                        0 => REST + rests[0],
                        number => number,
                    }
                }
            };
            at += len;
        }
        (out, memory.kept_beyond())
    }

    fn oracle(&self) -> Written {
        let mut out = self.outputs();
        out.answers[0] = why_not(&self.setup);
        if out.answers[0] != 0 {
            return out;
        }
        let mut strip = Strip::open(&self.setup, RATE);
        let mut at = 0;
        for (i, call) in self.calls.iter().enumerate() {
            let len = call.samples().len();
            out.answers[i + 1] = match call {
                _ if call.wrong() & 12 != 0 => 1,
                // an output that has no elements cannot be one short of them
                Call::Run { wrong, .. } if wrong & 48 != 0 || (wrong & 3 != 0 && len > 0) => 5,
                Call::Run { samples, drums, .. } => match strip.run(samples, *drums) {
                    Ok((frames, gains)) => {
                        out.frames[2 * at..2 * (at + len)].copy_from_slice(&frames);
                        out.gains[at..at + len].copy_from_slice(&gains);
                        0
                    }
                    Err(number) => number,
                },
                Call::Latch { to, over, .. } => strip.latch(*to, *over),
                Call::Rest { .. } => REST + u64::from(strip.rest()),
            };
            at += len;
        }
        out
    }
}

/// The answers of a list of calls: 4 declines none of it, and 6 lies too far.
const ANSWERS: [(u64, &str); 9] =
    [(0, "0"), (1, "1"), (2, "2"), (3, "3"), (5, "5"), (7, "7"), (8, "8"), (REST, "sound"), (REST + 1, "rest")];

impl List for Case {
    const MATTERS: &[&str] =
        &["0", "1", "2", "3", "5", "7", "8", "sound", "rest", "rest after a sound", "a tie neared", "a tie reached"];

    fn drawn(rng: &mut Rng) -> Self {
        let many = 1 + rng.below(16) as usize;
        let mut calls: Vec<Call> = (0..many).map(|_| Call::drawn(rng)).collect();
        if rng.once_in(64) {
            calls.extend(silence(rng));
        }
        let span = calls.iter().map(|call| call.samples().len() as u64).sum();
        let mut setup = Setup::drawn(rng, span);
        if rng.once_in(8) {
            spoil(rng, &mut setup);
        }
        Self { setup, beyond: rng.below(3) as usize * 5, calls }
    }

    fn samples(&self) -> u64 {
        self.calls.iter().map(|call| call.samples().len() as u64).sum()
    }

    fn difference(&self, met: &mut Met) -> Option<String> {
        let ((ours, kept), oracle) = (self.ours(), self.oracle());
        for (answer, name) in ANSWERS {
            met.note(name, oracle.answers.contains(&answer));
        }
        let mut sounded = oracle.answers.iter().skip_while(|&&answer| answer != REST);
        met.note("rest after a sound", sounded.any(|&answer| answer == REST + 1));
        let accepted = self.calls.iter().zip(&oracle.answers[1..]).filter(|(_, answer)| **answer == 0);
        let [neared, reached] = self.setup.ties(accepted.map(|(call, _)| call.samples().len() as u64).sum());
        met.note("a tie neared", neared);
        met.note("a tie reached", reached);
        lists::first("answer", &ours.answers, &oracle.answers)
            .or_else(|| lists::first("gain count", &ours.gains, &oracle.gains))
            .or_else(|| lists::first("side", &ours.frames, &oracle.frames))
            .or_else(|| lists::first("elements beyond kept", &[kept], &[true]))
    }
}

/// Runs of silence until rest, each asked whether it is there.
fn silence(rng: &mut Rng) -> Vec<Call> {
    let mut calls = vec![Call::Rest { wrong: 0 }];
    let mut left = signal::UNTIL_REST;
    while left > 0 {
        let len = (rng.scaled(4096.0, 65536.0) as usize).min(left);
        calls.push(Call::Run { samples: Signal(vec![0.0; len]), drums: rng.flag(), wrong: 0 });
        calls.push(Call::Rest { wrong: 0 });
        left -= len;
    }
    calls
}

/// One number or list outside its range. A number that the tone or the pad leaves out may be.
pub fn spoil(rng: &mut Rng, s: &mut Setup) {
    let unit = |rng: &mut Rng| rng.pick(&[-1e-45, 1.0000001, f32::NAN]);
    match rng.below(16) {
        0 => s.corners[rng.below(2) as usize] = rng.pick(&[19.999998, 20000.002, f32::NAN, f32::INFINITY]),
        1 => s.drive = rng.pick(&[0.09999999999999999, 8.000000000000002, f64::NAN]),
        2 => s.drives[rng.below(2) as usize] = rng.pick(&[0.099999994, 8.000001, f32::NAN]),
        3 => s.pad = Some([rng.pick(&[-1e-45, 20.000002, f32::NAN]), 0.5]),
        4 => s.pad = Some([7.0, unit(rng)]),
        5 => s.gains[rng.below(2) as usize] = rng.pick(&[-1e-300, 16.000000000000004, f64::NAN]),
        6 => s.daylight = unit(rng),
        7 => s.rain = unit(rng),
        8 => s.send = rng.pick(&[-1e-300, 1.0000000000000002, f64::NAN]),
        9 => s.points = vec![0; s.values.len() + 1],
        10 => s.kicks = rng.pick(&[[1, 0], [0, (1 << 32) + 1]]).to_vec(),
        11 => s.kicks = vec![0; 1025],
        12 => (s.points, s.values) = (rng.pick(&[[1, 0], [0, (1 << 32) + 1]]).to_vec(), vec![0.5; 2]),
        13 => (s.points, s.values) = (vec![7; 257], vec![0.5; 257]),
        14 => s.values.push(0.5),
        _ => (s.points, s.values) = (vec![7], vec![rng.pick(&[f64::NAN, -1e-300, 1.0000000000000002])]),
    }
}

impl Shrink for Case {
    fn smaller(&self) -> Vec<Self> {
        let mut out = Vec::new();
        for calls in each_without(&self.calls) {
            out.push(Case { calls, ..self.clone() });
        }
        for setup in self.setup.smaller() {
            out.push(Case { setup, ..self.clone() });
        }
        for (i, call) in self.calls.iter().enumerate() {
            if let Call::Run { samples, drums, wrong } = call {
                for samples in samples.quieter() {
                    let mut calls = self.calls.clone();
                    calls[i] = Call::Run { samples, drums: *drums, wrong: *wrong };
                    out.push(Case { calls, ..self.clone() });
                }
            }
        }
        out
    }
}

pub fn run(rng: &mut Rng, budget: Budget) -> Report {
    lists::run::<Case>(rng, budget)
}
