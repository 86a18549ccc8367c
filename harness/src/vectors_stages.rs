//! Prints the list that crates/replay_stages runs: answers of single functions on draws of a fixed seed, then signals through
//! the tape, the duck, the plate and the ceiling, all by the oracle. A line is a name and 12 numbers, patterns in hexadecimal;
//! a single answer is the last of them, and a signal fills lines.
#![allow(dead_code)]

mod compare;
mod library;
mod part;
mod report;
mod rng;
mod setup;
mod shrink;
mod signal;
mod strip;

use oracle::Controls;
use oracle::stream::biquad::{butter_lowpass, section};
use oracle::stream::delay::DelayLine;
use oracle::stream::lanes::{Automation, Duck, Grade, Sweep, swept};
use oracle::stream::master::Ceiling;
use oracle::stream::onepole::{OnePole, Tilt};
use oracle::stream::plate::Plate;
use oracle::stream::rain;
use oracle::stream::ramp::{Ramp, Shape};
use oracle::stream::{flush, gain_of_db};
use oracle::synth::{SIDECHAIN_ATTACK_S, SIDECHAIN_DB, SIDECHAIN_RELEASE_S, samples_at, sidechain_gain};

use compare::ceiling::limited;
use part::Call;
use rng::Rng;
use setup::{RATE, Setup, control, merged};
use signal::{AT_FLOOR, number};

/// Lines for each function.
const LINES: u64 = 200;

/// Samples of a signal.
const SAMPLES: usize = 300;

/// A name and up to 12 numbers, the answer last.
fn line(name: &str, numbers: &[u64], answer: u64) {
    let mut all = [0; 12];
    all[..numbers.len()].copy_from_slice(numbers);
    all[11] = answer;
    row(name, &all);
}

fn row(name: &str, numbers: &[u64]) {
    let mut all = [0; 12];
    all[..numbers.len()].copy_from_slice(numbers);
    let words: Vec<String> = all.iter().map(|n| format!("{n:016x}")).collect();
    println!("{name:8}{}", words.join(" "));
}

/// A list, 12 numbers to a line.
fn rows(name: &str, numbers: &[u64]) {
    for twelve in numbers.chunks(12) {
        row(name, twelve);
    }
}

fn signal(name: &str, samples: &[f64]) {
    rows(name, &samples.iter().map(|&x| bits(x)).collect::<Vec<_>>());
}

/// An f64's pattern, one for all NaNs.
fn bits(x: f64) -> u64 {
    if x.is_nan() { 0x7ff8_0000_0000_0000 } else { x.to_bits() }
}

/// An f32's, one for all NaNs.
fn short(x: f32) -> u64 {
    u64::from(if x.is_nan() { 0x7fc0_0000 } else { x.to_bits() })
}

fn filters(rng: &mut Rng) {
    for i in 0..LINES {
        let five = butter_lowpass(rng.scaled(20.0, 20000.0) as f32, 4, RATE).coefficients()[(i % 2) as usize];
        let nine: [f64; 9] = std::array::from_fn(|k| if k < 5 && i % 4 != 0 { five[k] } else { number(rng) });
        let x = number(rng);
        let numbers: Vec<u64> = nine.iter().chain([&x]).map(|&v| bits(v)).collect();
        line("section", &numbers, bits(section(nine, x).1));
    }
    for _ in 0..LINES {
        let [pole, y, x] = [number(rng), number(rng), number(rng)];
        line("onepole", &[pole, y, x].map(bits), bits(OnePole::of(pole, y).lowpass(x)));
    }
    for _ in 0..LINES {
        let [pole, y, wet, x] = [number(rng), number(rng), rng.unit(), number(rng)];
        let mut one = [x];
        Tilt::of(pole, y).process_lifted(&mut one, |_| rain::lift(wet));
        line("tilt", &[pole, y, wet, x].map(bits), bits(one[0]));
    }
}

/// At its floor, then anywhere.
fn flushes(rng: &mut Rng) {
    for i in 0..LINES {
        let v = AT_FLOOR.get(i as usize).copied().unwrap_or_else(|| number(rng));
        line("flush", &[bits(v)], bits(flush(v)));
    }
}

fn delays(rng: &mut Rng) {
    for _ in 0..LINES {
        let ring: Vec<f64> = (0..4).map(|_| number(rng)).collect();
        let written = if rng.flag() { rng.below(8) } else { rng.below(1 << 32) };
        let most = rng.pick(&[2.0, 1.5, 0.0]);
        let delay = if rng.flag() { rng.between(-0.5, 2.5) } else { rng.pick(&[0.0, -1.0, 1.0, 9.0, f64::NAN]) };
        let mut numbers: Vec<u64> = ring.iter().map(|&v| bits(v)).collect();
        numbers.extend([written, bits(most), bits(delay)]);
        line("delay", &numbers, bits(DelayLine::of(ring, most, written).tap(delay)));
    }
}

fn position(rng: &mut Rng) -> u64 {
    if rng.once_in(5) { rng.pick(&[0, 1, 1 << 32]) } else { rng.below(300) }
}

fn ramps(rng: &mut Rng) {
    for i in 0..LINES {
        let db = i % 2 == 1;
        let ends = if db { [rng.between(0.001, 1.0), rng.between(0.001, 1.0)] } else { [control(rng), control(rng)].map(f64::from) };
        let span = [position(rng), position(rng)];
        let n = if rng.flag() { position(rng) } else { span[0] + rng.below(span[1] + 2) };
        let shape = if db { Shape::Db } else { Shape::Linear };
        let ramp = Ramp::of(ends[0], ends[1], span[0] as usize, span[1] as usize, shape);
        line("ramp", &[bits(ends[0]), bits(ends[1]), span[0], span[1], u64::from(db), n], bits(ramp.at(n as usize)));
    }
    for _ in 0..LINES {
        let [from, to] = [rng.between(0.0, 0.5) as f32, rng.between(0.5, 1.0) as f32];
        let span = [position(rng), position(rng)];
        let n = span[0] + rng.below(span[1] + 2);
        let mut automation = Automation::new(Controls { daylight: from, rain: 0.0 }, None);
        automation.latch(span[0] as usize, Controls { daylight: to, rain: 0.0 }, span[1] as usize, 0);
        let numbers = [bits(f64::from(from)), bits(f64::from(to)), span[0], span[1], n];
        line("daylight", &numbers, bits(automation.daylight(n as usize)));
    }
}

fn tones(rng: &mut Rng) {
    for i in 0..LINES {
        let mut points = [rng.below(200), rng.below(200), rng.below(200)];
        points.sort_unstable();
        if rng.once_in(4) {
            // the first two on one sample, the last two, or all
            let tied = [0..2, 1..3, 0..3][i as usize % 3].clone();
            let at = points[tied.start];
            points[tied].fill(at);
        }
        let values = [rng.unit(), rng.pick(&[0.0, 1.0, 0.5]), rng.unit()];
        let own = rng.scaled(700.0, 20000.0) as f32;
        let n = rng.below(220);
        let sweep = Sweep::new(merged(&points, &values));
        let mut numbers = points.to_vec();
        numbers.extend(values.map(bits));
        numbers.extend([short(own), n]);
        line("sweep", &numbers, short(swept(own, sweep.at(n as usize))));
    }
    for _ in 0..LINES {
        let (own, x) = (rng.scaled(20.0, 20000.0) as f32, if rng.once_in(4) { rng.pick(&[0.0, 1.0, -0.0]) } else { rng.unit() });
        line("opened", &[short(own), bits(x)], short(swept(own, x)));
    }
    for drives in [false, true] {
        for _ in 0..LINES {
            let t = if rng.once_in(4) { rng.pick(&[0.0, 1.0, -0.0]) } else { rng.unit() };
            let ends = if drives { [rng.between(0.1, 8.0), rng.between(0.1, 8.0)] } else { [rng.scaled(20.0, 20000.0), rng.scaled(20.0, 20000.0)] };
            let ends = ends.map(|end| end as f32);
            let grade = Grade::new(ends, ends);
            let numbers = [short(ends[0]), short(ends[1]), bits(t)];
            if drives { line("drive", &numbers, bits(grade.drive(t))) } else { line("corner", &numbers, short(grade.corner_hz(t))) }
        }
    }
    let [attack, release] = [SIDECHAIN_ATTACK_S, SIDECHAIN_RELEASE_S].map(|s| samples_at(s, RATE));
    let floor = gain_of_db(f64::from(SIDECHAIN_DB));
    let side = |since: u64| line("side", &[since], bits(sidechain_gain(since as usize, floor, attack, release)));
    (0..attack as u64).for_each(&side);
    for i in 0..LINES {
        side([441, 442, 8819, 8820, 1 << 32].get(i as usize).copied().unwrap_or(rng.below(9000)));
    }
}

fn noise(rng: &mut Rng, most: f64) -> Vec<f64> {
    (0..SAMPLES).map(|_| rng.between(-most, most)).collect()
}

/// A lane that has everything.
fn everything() -> Setup {
    Setup {
        graded: true,
        corners: [900.0, 9000.0],
        drives: [1.2, 3.0],
        drive: 1.0,
        pad: Some([7.3, 0.4]),
        darkens: true,
        gains: [1.5, 0.8],
        ducked: true,
        daylight: 0.25,
        rain: 0.75,
        send: 0.0,
        points: vec![40, 100, 100, 250],
        values: vec![1.0, 0.5, 0.25, 0.75],
        kicks: vec![3, 70, 70, 90, 120, 130, 150, 200, 200, 299, 1 << 20, 1 << 32],
    }
}

/// A lane by at most twelve calls over a signal, which is played over and over where it is shorter than they are: the signal, the
/// setup, the calls and what comes out.
fn lane(name: &str, setup: &Setup, x: &[f64], calls: &[Call]) {
    signal(name, x);
    let numbers = setup.numbers();
    row("f32s", &numbers.f32s.map(short));
    let mut second: Vec<u64> = numbers.f64s.map(bits).to_vec();
    second.push(numbers.flags);
    row("f64s", &second);
    row("points", &setup.points);
    signal("values", &setup.values);
    row("kicks", &setup.kicks);
    let mut words: Vec<u64> = calls.iter().flat_map(Call::words).collect();
    words.resize(48, 0);
    rows("calls", &words);
    let mut automation = setup.automation();
    let mut tape = setup.tape(&automation, RATE);
    let mut out = Vec::new();
    for call in calls {
        let at = out.len();
        match *call {
            Call::Run(len, drums) => {
                out.extend(x.iter().cycle().skip(at % x.len()).take(len as usize));
                tape.process(&mut out[at..], at, &automation, drums, &mut Vec::new());
            }
            Call::Latch([daylight, rain], [grading, darkening]) => {
                automation.latch(at, Controls { daylight, rain }, grading as usize, darkening as usize);
            }
        }
    }
    signal(name, &out);
}

fn tape(rng: &mut Rng) {
    let calls = [
        Call::Run(1, true),
        Call::Run(31, true),
        Call::Latch([0.5, 0.2], [40, 3]),
        Call::Run(32, false),
        Call::Run(56, true),
        Call::Latch([0.9, 0.1], [77, 50]),
        Call::Run(0, true),
        Call::Latch([0.9, 0.4], [5, 0]),
        Call::Run(100, false),
        Call::Run(63, true),
        Call::Run(17, false),
    ];
    lane("tape", &everything(), &noise(rng, 1.2), &calls);
}

/// Runs with drums and without by turns, so long that four kicks which sounded have released, and others were never heard.
const RUNS: [u64; 11] = [1, 440, 2000, 31, 3000, 1000, 1, 2, 2300, 1, 1304];
const KICKS: [u64; 12] = [0, 1, 441, 441, 1000, 2440, 2450, 6472, 6473, 8775, 8776, 1 << 32];

fn runs() -> Vec<(u64, bool)> {
    RUNS.into_iter().enumerate().map(|(i, len)| (len, i % 2 == 0)).collect()
}

/// The lane under kicks.
fn kicks(rng: &mut Rng) {
    let points = vec![500, 500, 4000, 4000];
    let values = vec![0.75, 1.0, 0.5, 0.25];
    let setup = Setup { points, values, kicks: KICKS.to_vec(), ..everything() };
    let calls: Vec<Call> = runs().into_iter().map(|(len, drums)| Call::Run(len, drums)).collect();
    lane("kicks", &setup, &noise(rng, 1.2), &calls);
}

/// The duck by itself: the kicks, the positions at which the drums turn, and every sample's gain.
fn duck() {
    row("kicks", &KICKS);
    let (mut turns, mut gains) = (vec![1 << 32; 12], Vec::new());
    let mut duck = Duck::new(&KICKS.map(|kick| kick as usize), SIDECHAIN_DB, SIDECHAIN_ATTACK_S, SIDECHAIN_RELEASE_S, RATE);
    for (i, (len, drums)) in runs().into_iter().enumerate() {
        let at = gains.len();
        duck.reach(at + len as usize, drums);
        gains.extend((at..at + len as usize).map(|n| duck.gain(n)));
        turns[i] = gains.len() as u64;
    }
    row("turns", &turns);
    signal("duck", &gains);
}

/// The lengths of the calls that a stage is run in.
const CALLS: [u64; 12] = [1, 0, 31, 32, 33, 64, 0, 100, 700, 39, 2000, 0];

/// The signal ten times over, since the plate answers late: the last time's answers.
fn plate(rng: &mut Rng) {
    row("calls", &CALLS);
    let x = noise(rng, 1.0);
    let mut sides = [Vec::new(), Vec::new()];
    Plate::new(RATE).process(&x.repeat(10), &mut sides);
    signal("plate", &x);
    for side in sides {
        signal("plate", &side[9 * SAMPLES..]);
    }
}

/// Frames of a ceiling, and how many of them decay.
const FRAMES: usize = 2004;
const DECAY: usize = 950;

/// A level that decays slower than the gain is released: each need is queued, and held until it leaves the window. Then noise
/// below the limit, a peak among it that undercuts some of those that are queued, and at the end what silences for good.
fn frames(rng: &mut Rng) -> Vec<[f64; 2]> {
    let mut decay = 2.0;
    let mut frames: Vec<[f64; 2]> = (0..FRAMES)
        .map(|i| {
            decay *= 0.9999;
            let level = if i < DECAY { decay } else { rng.between(0.0, 0.89) };
            [rng.pick(&[level, -level]), level * rng.between(-1.0, 1.0)]
        })
        .collect();
    frames[5] = [f64::NAN, 1.5];
    frames[6] = [f64::NAN, f64::NAN];
    frames[8] = [f64::from(0.891_250_9f32), -0.0];
    frames[1100] = [-0.0, -1.85];
    frames[1101] = [1.85, 0.5];
    frames[FRAMES - 4] = [-0.0, f64::INFINITY];
    frames
}

fn ceiling(rng: &mut Rng) {
    row("calls", &CALLS);
    let frames = frames(rng);
    for side in [0, 1] {
        signal("ceiling", &frames.iter().map(|frame| frame[side]).collect::<Vec<_>>());
    }
    let (out, gains) = limited(&mut Ceiling::new(RATE), &frames);
    rows("ceiling", &out.into_iter().map(short).collect::<Vec<_>>());
    rows("ceiling", &gains);
}

fn main() {
    let mut rng = Rng::new(LINES);
    filters(&mut rng);
    delays(&mut rng);
    ramps(&mut rng);
    tones(&mut rng);
    flushes(&mut Rng::new(1));
    row("end", &[]);
    tape(&mut rng);
    kicks(&mut rng);
    duck();
    plate(&mut rng);
    ceiling(&mut rng);
}
