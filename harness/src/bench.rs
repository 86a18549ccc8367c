//! The cost of the part beside the Rust's: bench [ROUNDS]. Both play one signal by turns. A line is a name, the samples of a
//! call, and the part's time over the Rust's: the least, the middle and the most of the rounds' ratios. A strip's line has the same
//! once more with the calls' own cost (as many runs of no sample, which refusal 4 checks like any other) taken off. 'Alone' is the part's
//! time for samples in calls of 1, the checks taken off, over its time for them in calls of 1,024, then over the Rust's; last, with the
//! checks, over the Rust's.
#![allow(dead_code)]

use std::hint::black_box;
use std::time::Instant;

mod compare;
mod library;
mod part;
mod report;
mod rng;
mod setup;
mod shrink;
mod signal;
mod strip;

use compare::refusals::{FRAMES, NEEDS, PLATE, STEPS, WAITING};
use library::Memory;
use oracle::Controls;
use oracle::stream::master::Ceiling;
use oracle::stream::plate::Plate;
use part::Call;
use rng::Rng;
use setup::{RATE, Setup};

/// Two seconds.
const SAMPLES: usize = 88_200;

/// The samples of an attack.
const ATTACK: usize = 441;

/// Samples from one latch to the next.
const LATCHED: usize = 4096;

fn timed(run: &mut dyn FnMut()) -> f64 {
    let start = Instant::now();
    run();
    start.elapsed().as_secs_f64()
}

/// The least, the middle and the most.
fn spread(mut ratios: Vec<f64>) -> String {
    ratios.sort_by(f64::total_cmp);
    format!("{:.2}\t{:.2}\t{:.2}", ratios[0], ratios[ratios.len() / 2], ratios[ratios.len() - 1])
}

/// Both by turns.
fn line(name: &str, size: usize, rounds: u64, ours: &mut dyn FnMut(), rust: &mut dyn FnMut()) {
    let ratios = (0..rounds).map(|_| timed(ours) / timed(rust)).collect();
    println!("{name}\t{size}\t{}", spread(ratios));
}

/// A lane that has everything: graded, swelling, darkened, ducked and, where it sweeps, swept.
fn lane(sweeping: bool) -> Setup {
    Setup {
        graded: true,
        corners: [900.0, 9000.0],
        drives: [1.2, 3.0],
        drive: 1.0,
        pad: Some([0.3, 0.2]),
        darkens: true,
        gains: [1.5, 0.8],
        ducked: true,
        daylight: 0.3,
        rain: 0.6,
        send: 0.3,
        points: if sweeping { vec![0, 80_000] } else { Vec::new() },
        values: if sweeping { vec![0.2, 0.9] } else { Vec::new() },
        kicks: (0..20).map(|k| k * 22_050 / 5).collect(),
    }
}

/// Swept between two samples on which as many points are stacked as a strip takes.
fn stacked() -> Setup {
    let swept = lane(true);
    let points = swept.points.iter().flat_map(|&at| [at; 128]).collect();
    let values = swept.values.iter().flat_map(|&value| [value; 128]).collect();
    Setup { points, values, ..swept }
}

/// One corner, no pad, no duck.
fn plain() -> Setup {
    Setup { graded: false, pad: None, darkens: false, ducked: false, kicks: Vec::new(), ..lane(false) }
}

/// As many kicks as a strip takes, all within the reach of one.
fn crowded() -> Setup {
    Setup { kicks: (0..1024).map(|k| 8 * k).collect(), ..lane(false) }
}

/// Kicks at the first sample, so that each attacks at every one of `ATTACK` samples. Under twice as many the last samples come near the subnormal numbers.
fn attacking() -> Setup {
    Setup { kicks: vec![0; 512], ..lane(false) }
}

fn tape(name: &str, setup: &Setup, x: &[f64], size: usize, rounds: u64) {
    let calls: Vec<Call> = x.chunks(size).map(|call| Call::Run(call.len() as u64, true)).collect();
    let (mut out, mut theirs) = (x.to_vec(), x.to_vec());
    let mut ours = || {
        out.copy_from_slice(x);
        black_box(part::tape(setup, &mut out, &calls));
    };
    let mut rust = || {
        theirs.copy_from_slice(x);
        let automation = setup.automation();
        let mut tape = setup.tape(&automation, RATE);
        let mut band = Vec::new();
        for (i, call) in theirs.chunks_mut(size).enumerate() {
            tape.process(call, i * size, &automation, true, &mut band);
        }
        black_box(tape.at_rest());
    };
    line(name, size, rounds, &mut ours, &mut rust);
}

fn plate(x: &[f64], size: usize, rounds: u64) {
    let calls: Vec<u64> = x.chunks(size).map(|call| call.len() as u64).collect();
    let mut lent = vec![0.0; PLATE.len];
    let [mut left, mut right] = [x.to_vec(), x.to_vec()];
    let mut sides = [Vec::new(), Vec::new()];
    let mut ours = || {
        left.copy_from_slice(x);
        black_box(part::plate_in(&mut lent, &mut left, &mut right, &calls));
    };
    let mut rust = || {
        let mut plate = Plate::new(RATE);
        for call in x.chunks(size) {
            plate.process(call, &mut sides);
            black_box(&sides);
        }
        black_box(plate.at_rest());
    };
    line("plate", size, rounds, &mut ours, &mut rust);
}

fn ceiling(x: &[f64], size: usize, rounds: u64) {
    let calls: Vec<u64> = x.chunks(size).map(|call| call.len() as u64).collect();
    let y: Vec<f64> = x.iter().map(|x| x * 0.7).collect();
    let (mut samples, mut counts) = (vec![0.0; NEEDS.len + WAITING.len], vec![0; FRAMES.len + STEPS.len]);
    let (mut frames, mut gains) = (vec![0.0f32; 2 * x.len()], vec![0; x.len()]);
    let both: Vec<[f64; 2]> = x.iter().zip(&y).map(|(&l, &r)| [l, r]).collect();
    let mut theirs = both.clone();
    let mut heard = vec![0.0f32; 2 * x.len()];
    let mut ours = || {
        part::ceiling_in((&mut samples, &mut counts), x, &y, &mut frames, &mut gains, &calls);
        black_box(&frames);
    };
    let mut rust = || {
        let mut ceiling = Ceiling::new(RATE);
        theirs.copy_from_slice(&both);
        for (call, heard) in theirs.chunks_mut(size).zip(heard.chunks_mut(2 * size)) {
            ceiling.limit_heard(call, |_| ());
            for (out, side) in heard.iter_mut().zip(call.as_flattened()) {
                *out = ceiling.clamp(*side);
            }
        }
        black_box(&heard);
    };
    line("ceiling", size, rounds, &mut ours, &mut rust);
}

/// What latch number k moves daylight and rain to, so that both are always on their way.
fn weather(k: usize) -> [f32; 2] {
    if k % 2 == 0 { [0.9, 0.1] } else { [0.2, 0.8] }
}

/// The part's strip over the signal; the time is that of its runs and latches.
fn ours(memory: &mut Memory, setup: &Setup, moving: bool, x: &[f64], size: usize, out: (&mut [f32], &mut [u64])) -> f64 {
    assert_eq!(memory.whole().open(setup), 0);
    let (frames, gains) = out;
    let start = Instant::now();
    for (i, call) in x.chunks(size).enumerate() {
        let at = i * size;
        if moving && at % LATCHED == 0 {
            memory.whole().latch(weather(at / LATCHED), [LATCHED as u64; 2]);
        }
        let end = at + call.len();
        black_box(memory.whole().run(call, 1, &mut frames[2 * at..2 * end], &mut gains[at..end]));
    }
    start.elapsed().as_secs_f64()
}

/// As many runs of no sample. Lent a frame for none, each is declined by 5, once 1 and 4 have let it pass.
fn idle(memory: &mut Memory, runs: usize, frames: &mut [f32]) -> f64 {
    timed(&mut || {
        for _ in 0..runs {
            black_box(memory.whole().run(&[], 1, frames, &mut []));
        }
    })
}

/// What the Rust's strip works in.
struct Room {
    band: Vec<f64>,
    y: Vec<f64>,
    sent: Vec<f64>,
    sides: [Vec<f64>; 2],
    frames: Vec<[f64; 2]>,
}

impl Room {
    fn new() -> Self {
        Self { band: Vec::new(), y: Vec::new(), sent: Vec::new(), sides: [Vec::new(), Vec::new()], frames: Vec::new() }
    }
}

/// The Rust's Tape, Plate and Ceiling joined, over the signal.
fn theirs(room: &mut Room, setup: &Setup, moving: bool, x: &[f64], size: usize, heard: &mut [f32]) -> f64 {
    let mut automation = setup.automation();
    let mut tape = setup.tape(&automation, RATE);
    let mut plate = Plate::new(RATE);
    let mut ceiling = Ceiling::new(RATE);
    let start = Instant::now();
    for (i, call) in x.chunks(size).enumerate() {
        let at = i * size;
        if moving && at % LATCHED == 0 {
            let [daylight, rain] = weather(at / LATCHED);
            automation.latch(at, Controls { daylight, rain }, LATCHED, LATCHED);
        }
        room.y.clear();
        room.y.extend_from_slice(call);
        tape.process(&mut room.y, at, &automation, true, &mut room.band);
        room.sent.clear();
        room.sent.extend(room.y.iter().map(|y| y * setup.send));
        plate.process(&room.sent, &mut room.sides);
        room.frames.clear();
        room.frames.extend(room.y.iter().enumerate().map(|(k, y)| [y + room.sides[0][k], y + room.sides[1][k]]));
        ceiling.limit_heard(&mut room.frames, |_| ());
        for (out, side) in heard[2 * at..].iter_mut().zip(room.frames.as_flattened()) {
            *out = ceiling.clamp(*side);
        }
    }
    black_box(&heard);
    start.elapsed().as_secs_f64()
}

fn strip(name: &str, setup: &Setup, moving: bool, x: &[f64], size: usize, rounds: u64) {
    let mut memory = Memory::new(0);
    let mut room = Room::new();
    let (mut frames, mut gains) = (vec![0.0f32; 2 * x.len()], vec![0; x.len()]);
    let mut heard = frames.clone();
    let (mut whole, mut apart) = (Vec::new(), Vec::new());
    for _ in 0..rounds {
        let part = ours(&mut memory, setup, moving, x, size, (&mut frames, &mut gains));
        let calls = idle(&mut memory, x.len().div_ceil(size), &mut []);
        let rust = theirs(&mut room, setup, moving, x, size, &mut heard);
        whole.push(part / rust);
        apart.push((part - calls) / rust);
    }
    println!("{name}\t{size}\t{}\t{}", spread(whole), spread(apart));
}

/// A call of one sample beside a sample of a call of 1,024: its checks taken off, beside the part's and the Rust's; whole, beside the Rust's.
fn alone(name: &str, setup: &Setup, moving: bool, x: &[f64], rounds: u64) {
    let mut memory = Memory::new(0);
    let mut room = Room::new();
    let (mut frames, mut gains) = (vec![0.0f32; 2 * x.len()], vec![0; x.len()]);
    let mut heard = frames.clone();
    let (mut own, mut other, mut whole) = (Vec::new(), Vec::new(), Vec::new());
    for _ in 0..rounds {
        let single = ours(&mut memory, setup, moving, x, 1, (&mut frames, &mut gains));
        let checks = idle(&mut memory, x.len(), &mut [0.0]);
        let among = ours(&mut memory, setup, moving, x, 1024, (&mut frames, &mut gains));
        let rust = theirs(&mut room, setup, moving, x, 1024, &mut heard);
        own.push((single - checks) / among);
        other.push((single - checks) / rust);
        whole.push(single / rust);
    }
    println!("{name}, alone\t1\t{}\t{}\t{}", spread(own), spread(other), spread(whole));
}

fn main() {
    let rounds = std::env::args().nth(1).and_then(|word| word.parse().ok()).unwrap_or(20);
    let mut rng = Rng::new(1);
    let x: Vec<f64> = (0..SAMPLES).map(|_| rng.between(-1.2, 1.2)).collect();
    println!("name\tcall\tleast\tmiddle\tmost\tleast, middle and most without the calls' own cost");
    for size in [1, 16, 64, 1024] {
        strip("everything, moving", &lane(true), true, &x, size, rounds);
        strip("256 tied points", &stacked(), true, &x, size, rounds);
        strip("plain, fixed", &plain(), false, &x, size, rounds);
        strip("1,024 kicks", &crowded(), false, &x[..8192], size, rounds);
        strip("512 kicks in attack", &attacking(), false, &x[..ATTACK], size, rounds);
    }
    alone("everything, moving", &lane(true), true, &x, rounds);
    alone("plain, fixed", &plain(), false, &x, rounds);
    alone("1,024 kicks", &crowded(), false, &x[..8192], rounds);
    alone("512 kicks in attack", &attacking(), false, &x[..ATTACK], rounds);
    for size in [64, 1024] {
        tape("tape", &lane(false), &x, size, rounds);
        tape("tape swept", &lane(true), &x, size, rounds);
        plate(&x, size, rounds);
        ceiling(&x, size, rounds);
    }
    for seconds in [1, 2, 4] {
        let long: Vec<f64> = x.iter().copied().cycle().take(44_100 * seconds).collect();
        strip(&format!("everything, {seconds} s"), &lane(true), true, &long, 1024, rounds.min(5));
    }
}
