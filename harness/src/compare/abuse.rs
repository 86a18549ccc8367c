//! Memory that no list of calls leads to. Each call's answer is held to refusals.rs, which has 01's grounds in its own words; a
//! refusal must leave every lent byte as it was, and nothing past the asked lengths may ever be touched. First one thing at a time:
//! every packed field, every kept list and every argument at its edges. Then anything: strips that calls led to and strips
//! made of draws, with values of every kind put anywhere and lists of any length. A run in which some ground never stood alone
//! has failed too: the part could lack that ground unseen. What an abused strip that is accepted plays is left open, but it must end.

use std::collections::BTreeMap;

use super::refusals::{self, END, Grounds, Part, UNIT, number, word};
use super::strip::spoil;
use super::tape::length;
use crate::library::{COUNTS, Memory, NUMBERS, STORE, WORDS};
use crate::report::{Budget, Report};
use crate::rng::Rng;
use crate::setup::{Numbers, Setup, control};
use crate::signal;

const ASKED: [usize; 4] = [NUMBERS, WORDS, STORE, COUNTS];

// ---- a call, and what is asked of it

/// A call, and what it is lent beside a strip's memory.
#[derive(Debug)]
enum Call {
    Open { f32s: [f32; 8], f64s: [f64; 4], flags: u64, lists: Setup },
    Run { samples: Vec<f64>, drums: u64, outputs: [usize; 2] },
    Latch { to: [f32; 2], over: [u64; 2] },
    Rest,
}

/// Outputs have elements before and after what is lent.
const GUARD: usize = 3;
const FRAME: f32 = -7.0;
const GAIN: u64 = 77;

impl Call {
    fn opening(setup: &Setup) -> Self {
        let Numbers { f32s, f64s, flags } = setup.numbers();
        Call::Open { f32s, f64s, flags, lists: setup.clone() }
    }

    fn running(samples: Vec<f64>) -> Self {
        let outputs = [2 * samples.len(), samples.len()];
        Call::Run { samples, drums: 1, outputs }
    }

    fn latching() -> Self {
        Call::Latch { to: [0.25, 0.75], over: [7, 9] }
    }

    fn name(&self) -> &'static str {
        match self {
            Call::Open { .. } => "open",
            Call::Run { .. } => "run",
            Call::Latch { .. } => "latch",
            Call::Rest => "rest",
        }
    }
}

/// What a call writes into beside the strip's memory.
struct Outputs {
    lengths: [usize; 2],
    frames: Vec<f32>,
    gains: Vec<u64>,
    rests: [u64; 1],
}

impl Outputs {
    fn of(call: &Call) -> Self {
        let lengths = if let Call::Run { outputs, .. } = call { *outputs } else { [0; 2] };
        let [frames, gains] = lengths.map(|len| len + 2 * GUARD);
        Self { lengths, frames: vec![FRAME; frames], gains: vec![GAIN; gains], rests: [GAIN] }
    }

    fn lent(&mut self) -> (&mut [f32], &mut [u64]) {
        let [frames, gains] = self.lengths;
        (&mut self.frames[GUARD..][..frames], &mut self.gains[GUARD..][..gains])
    }

    /// Whether all is as it was but what a run writes.
    fn kept(&self, wrote: bool) -> bool {
        let [frames, gains] = if wrote { self.lengths } else { [0; 2] };
        self.frames[..GUARD].iter().chain(&self.frames[GUARD + frames..]).all(|&x| x == FRAME)
            && self.gains[..GUARD].iter().chain(&self.gains[GUARD + gains..]).all(|&n| n == GAIN)
    }
}

/// The memory that calls are made on; how often each call gave each answer, and how often each ground alone gave it.
struct Bench {
    memory: Memory,
    before: Memory,
    report: Report,
    answers: BTreeMap<(&'static str, u64), u64>,
    met: BTreeMap<(&'static str, u64, &'static str), u64>,
}

impl Bench {
    /// A call that is lent the first elements of each list, so many.
    fn call(&mut self, lent: [usize; 4], call: &Call) -> u64 {
        let Self { memory, before, .. } = self;
        before.become_as(memory);
        let mut out = Outputs::of(call);
        let strip = memory.lend(lent);
        let (grounds, answer) = match call {
            Call::Open { f32s, f64s, flags, lists } => {
                (refusals::open(lent, f32s, f64s, *flags, lists), strip.open_by(f32s, f64s, *flags, lists))
            }
            Call::Run { samples, drums, outputs } => {
                let (frames, gains) = out.lent();
                (refusals::run(before, lent, samples, *outputs), strip.run(samples, *drums, frames, gains))
            }
            Call::Latch { to, over } => (refusals::latch(before, lent, *to, *over), strip.latch(*to, *over)),
            Call::Rest => (refusals::rest(before, lent), strip.rest(&mut out.rests)),
        };
        self.count(call.name(), &grounds);
        if let Some(fault) = self.fault(call, &grounds, answer, &out) {
            let (words, numbers) = (&self.before.words[..WORDS], &self.before.numbers[number::SET]);
            let strip = format!("words {words:?}, numbers .. {numbers:?} ..");
            self.report.differs(0, format!("{call:?} lent {lent:?} of {strip} answers {answer}: {fault}"));
        }
        answer
    }

    fn count(&mut self, name: &'static str, grounds: &Grounds) {
        let answer = grounds.answer();
        self.report.cases += 1;
        *self.answers.entry((name, answer)).or_default() += 1;
        *self.met.entry((name, 0, "no ground")).or_default() += u64::from(answer == 0);
        for ground in &grounds.0 {
            self.met.entry((name, ground.0, ground.1)).or_default();
        }
        if let Some(alone) = grounds.alone() {
            *self.met.entry((name, answer, alone)).or_default() += 1;
        }
    }

    /// What is wrong with a call's answer or with what it wrote.
    fn fault(&mut self, call: &Call, grounds: &Grounds, answer: u64, out: &Outputs) -> Option<String> {
        if answer != grounds.answer() {
            let why: Vec<&str> = grounds.0.iter().filter(|ground| ground.2).map(|ground| ground.1).collect();
            return Some(format!("by 01 it is {}, for {why:?}", grounds.answer()));
        }
        // what the call may write: nothing where it declines, a latch the packed strip, a rest none of it
        let writes = match call {
            _ if answer != 0 => [0; 4],
            Call::Rest => [0; 4],
            Call::Latch { .. } => [NUMBERS, WORDS, 0, 0],
            Call::Open { .. } | Call::Run { .. } => ASKED,
        };
        if !self.memory.same_from(&self.before, writes) {
            return Some("memory altered that is not the call's".into());
        }
        if !out.kept(answer == 0) {
            return Some("outputs altered that are not the call's".into());
        }
        let rests = match call {
            Call::Rest if answer == 0 => u64::from(refusals::rests(&self.before)),
            _ => GAIN,
        };
        *self.met.entry(("rest", 0, "at rest")).or_default() += u64::from(rests == 1);
        *self.met.entry(("rest", 0, "sounding")).or_default() += u64::from(rests == 0);
        if out.rests[0] != rests {
            return Some(format!("rests is {} and not {rests}", out.rests[0]));
        }
        let [from, to] = [&self.before, &self.memory].map(|memory| memory.words[word::POSITION]);
        match call {
            Call::Run { samples, .. } if answer == 0 && to != from + samples.len() as u64 => {
                Some(format!("the position is {to}"))
            }
            _ => None,
        }
    }

    /// Fails where a ground never stood alone, and tells how often each answer was given.
    fn finish(mut self) -> Report {
        for (call, number, ground) in self.met.iter().filter(|met| *met.1 == 0).map(|met| met.0) {
            self.report.differs(0, format!("no {call} at all in which {number} ({ground}) stood alone"));
        }
        for name in ["open", "run", "latch", "rest"] {
            let answers = self.answers.iter().filter(|((call, _), _)| *call == name);
            let told: Vec<String> = answers.map(|((_, answer), many)| format!("{answer} {many} times")).collect();
            self.report.tell(format!("{name} answered {}", told.join(", ")));
        }
        let least = self.met.values().min().copied().unwrap_or_default();
        self.report.tell(format!("{} grounds and outcomes met alone, the rarest {least} times", self.met.len()));
        self.report
    }
}

// ---- places and values

/// Where a value is put.
#[derive(Clone, Copy, Debug)]
enum Place {
    Number(usize),
    Word(usize),
    Store(usize),
    Count(usize),
    /// A step, with the gain count made the total anew.
    Step(usize),
}

impl Place {
    fn is_float(self) -> bool {
        matches!(self, Place::Number(_) | Place::Store(_))
    }

    fn at(self, memory: &Memory) -> u64 {
        match self {
            Place::Number(at) => memory.numbers[at].to_bits(),
            Place::Word(at) => memory.words[at],
            Place::Store(at) => memory.store[at].to_bits(),
            Place::Count(at) | Place::Step(at) => memory.counts[at],
        }
    }

    fn put(self, memory: &mut Memory, value: u64) {
        match self {
            Place::Number(at) => memory.numbers[at] = f64::from_bits(value),
            Place::Word(at) => memory.words[at] = value,
            Place::Store(at) => memory.store[at] = f64::from_bits(value),
            Place::Count(at) => memory.counts[at] = value,
            Place::Step(at) => {
                memory.counts[at] = value;
                memory.words[word::GAIN] = total(memory);
            }
        }
    }
}

fn total(memory: &Memory) -> u64 {
    refusals::STEPS.of(&memory.counts).iter().fold(0, |sum: u64, step| sum.wrapping_add(*step))
}

/// The ends of every range, one f64 or one f32 beside them, what is no f32, and NaNs of several payloads.
const FLOATS: [f64; 37] = [
    0.0,
    -0.0,
    5e-324,
    -5e-324,
    -1e-300,
    1.401298464324817e-45,
    -1.401298464324817e-45,
    0.1,
    0.09999999999999999,
    0.10000000149011612,
    0.09999999403953552,
    0.3,
    0.5,
    1.0,
    1.0000000000000002,
    1.0000001192092896,
    -1.0,
    8.0,
    8.000000000000002,
    8.00000095367431640625,
    16.0,
    16.000000000000004,
    19.0,
    19.999998092651367,
    20.0,
    20.000001907348633,
    1000.1,
    20000.0,
    20000.001953125,
    1e300,
    -1e300,
    f64::INFINITY,
    f64::NEG_INFINITY,
    f64::NAN,
    f64::from_bits(0x7ff8_0000_dead_beef),
    f64::from_bits(0x7ff0_0000_0000_0001),
    f64::from_bits(0xfff4_0123_4567_89ab),
];

const WHOLES: [u64; 25] = [
    0,
    1,
    2,
    3,
    31,
    32,
    255,
    256,
    257,
    882,
    883,
    884,
    1023,
    1024,
    1025,
    END - 1,
    END,
    END + 1,
    UNIT,
    UNIT + 1,
    221 * UNIT,
    221 * UNIT + 1,
    1 << 53,
    1 << 63,
    u64::MAX,
];

/// The edges of a place, and what is next to the value that it has.
fn edges(place: Place, now: u64) -> Vec<u64> {
    let beside = [now.wrapping_add(1), now.wrapping_sub(1)];
    let of: Vec<u64> = if place.is_float() { FLOATS.map(f64::to_bits).to_vec() } else { WHOLES.to_vec() };
    of.into_iter().chain(beside).collect()
}

fn word(rng: &mut Rng) -> u64 {
    match rng.below(3) {
        0 => rng.pick(&WHOLES),
        1 => rng.below(1100),
        _ => rng.bits(),
    }
}

fn number(rng: &mut Rng) -> f64 {
    match rng.below(4) {
        0 => rng.pick(&FLOATS),
        1 => rng.unit(),
        2 => rng.between(-2.0, 2.0),
        _ => rng.any_f64(),
    }
}

const STORE_PARTS: [Part; 5] = [refusals::PLATE, refusals::NEEDS, refusals::WAITING, refusals::WARP, refusals::VALUES];
const COUNT_PARTS: [Part; 5] =
    [refusals::FRAMES, refusals::STEPS, refusals::KICKS, refusals::MARKS, refusals::POSITIONS];

/// Every number and word; of each kept list its ends, what of it is in use, and what lies behind the last.
fn places(memory: &Memory) -> Vec<Place> {
    let mut out: Vec<Place> = (0..NUMBERS).map(Place::Number).chain((0..WORDS).map(Place::Word)).collect();
    for Part { at, len } in STORE_PARTS {
        out.extend([at, at + len / 2, at + len - 1].map(Place::Store));
    }
    for Part { at, len } in COUNT_PARTS {
        out.extend([at, at + len / 2, at + len - 1].map(Place::Count));
    }
    let Part { at, len } = refusals::STEPS;
    out.extend([at, at + len / 2, at + len - 1].map(Place::Step));
    let queue: Vec<usize> = refusals::queue(&memory.words).collect();
    out.extend(queue.first().into_iter().chain(queue.last()).map(|&at| Place::Store(at)));
    let [points, kicks] = [word::POINTS, word::KICKED].map(|at| memory.words[at] as usize);
    for i in [1, points / 2, points.saturating_sub(1)] {
        out.extend([Place::Store(refusals::VALUES.at + i), Place::Count(refusals::POSITIONS.at + i)]);
    }
    for i in [1, kicks / 2, kicks.saturating_sub(1)] {
        out.extend([refusals::KICKS, refusals::MARKS].map(|part| Place::Count(part.at + i)));
    }
    out.extend([Place::Store(STORE - 1), Place::Count(COUNTS - 1)]);
    out
}

/// Any place, each list as often as the others, and mostly what is in use of it.
fn place(rng: &mut Rng, memory: &Memory) -> Place {
    let within = |rng: &mut Rng, parts: &[Part]| {
        let Part { at, len } = &parts[rng.below(parts.len() as u64) as usize];
        at + rng.below(*len as u64) as usize
    };
    let [points, kicks] = [word::POINTS, word::KICKED].map(|at| memory.words[at].clamp(1, 256));
    match rng.below(16) {
        0..5 => Place::Number(rng.below(NUMBERS as u64) as usize),
        5..10 => Place::Word(rng.below(WORDS as u64) as usize),
        10 => Place::Store(within(rng, &STORE_PARTS)),
        11 => Place::Count(within(rng, &COUNT_PARTS)),
        12 => Place::Step(within(rng, &[refusals::STEPS])),
        13 => refusals::queue(&memory.words).last().map_or(Place::Word(word::QUEUED), Place::Store),
        14 => Place::Count(refusals::KICKS.at + rng.below(kicks) as usize),
        _ => {
            let i = rng.below(points) as usize;
            if rng.flag() { Place::Store(refusals::VALUES.at + i) } else { Place::Count(refusals::POSITIONS.at + i) }
        }
    }
}

fn value(rng: &mut Rng, place: Place, now: u64) -> u64 {
    match rng.below(3) {
        0 => {
            let edges = edges(place, now);
            rng.pick(&edges)
        }
        _ if place.is_float() => number(rng).to_bits(),
        _ => word(rng),
    }
}

// ---- strips

/// A strip that calls lead to.
fn good(rng: &mut Rng, setup: &Setup, len: usize, beyond: usize) -> Memory {
    let mut memory = Memory::new(beyond);
    let opened = memory.whole().open(setup);
    assert_eq!(opened, 0, "a setup within 01's ranges is opened");
    let samples = signal::drawn(rng, len);
    memory.whole().run(&samples, u64::from(rng.flag()), &mut vec![0.0; 2 * len], &mut vec![0; len]);
    if rng.flag() {
        memory.whole().latch([control(rng), control(rng)], [length(rng), length(rng)]);
    }
    memory
}

fn unit(rng: &mut Rng) -> f64 {
    if rng.flag() { rng.unit() } else { rng.pick(&[0.0, -0.0, 5e-324, 0.5, 1.0, 0.9999999999999999]) }
}

/// A strip that 4 passes, made of draws: of what 4 does not ask, anything.
fn made(rng: &mut Rng, beyond: usize) -> Memory {
    let mut memory = Memory::new(beyond);
    let setup = Setup::drawn(rng, 400);
    let Memory { numbers, words, store, counts } = &mut memory;
    numbers[..NUMBERS].fill_with(|| number(rng));
    words[..WORDS].fill_with(|| word(rng));
    if rng.flag() {
        store[..STORE].fill_with(|| number(rng));
    } else {
        store[..STORE].fill(0.0);
    }
    counts[..COUNTS].fill_with(|| word(rng));
    let mut set = |at: &[usize], to: &[f64]| at.iter().zip(to).for_each(|(&at, &to)| numbers[at] = to);
    set(&number::CORNERS, &setup.corners.map(f64::from));
    if setup.graded {
        set(&number::DRIVES, &setup.drives.map(f64::from));
    } else {
        set(&[number::DRIVE], &[setup.drive]);
    }
    if let Some(pad) = setup.pad {
        set(&number::PAD, &pad.map(f64::from));
    }
    set(&number::GAINS, &setup.gains);
    set(&[number::DAYLIGHT, number::RAIN], &[setup.daylight, setup.rain].map(f64::from));
    set(&[number::SEND, number::RELEASED], &[setup.send, unit(rng)]);
    let position = |rng: &mut Rng| match rng.below(3) {
        0 => rng.below(20_000),
        1 => END - rng.below(300),
        _ => rng.within(0, END),
    };
    words[word::POSITION] = position(rng);
    words[word::TONE] = u64::from(setup.graded);
    words[word::PAD] = u64::from(setup.pad.is_some());
    words[word::DARKENED] = u64::from(setup.darkens);
    words[word::DUCKED] = u64::from(setup.ducked);
    words[word::POINTS] = setup.points.len() as u64;
    for at in word::STARTS.into_iter().chain(word::LENGTHS) {
        words[at] = position(rng);
    }
    for at in word::SHAPES {
        words[at] = rng.below(2);
    }
    let kicks = setup.kicks.len() as u64;
    words[word::KICKED] = kicks;
    words[word::REACHED] = rng.within(0, kicks);
    words[word::DUCKING] = rng.within(0, kicks);
    words[word::HEAD] = rng.below(883);
    words[word::QUEUED] = rng.within(0, 883);
    refusals::NEEDS.of_mut(store).fill_with(|| unit(rng));
    refusals::VALUES.of_mut(store)[..setup.values.len()].copy_from_slice(&setup.values);
    refusals::KICKS.of_mut(counts)[..setup.kicks.len()].copy_from_slice(&setup.kicks);
    refusals::POSITIONS.of_mut(counts)[..setup.points.len()].copy_from_slice(&setup.points);
    refusals::STEPS.of_mut(counts).fill_with(|| rng.pick(&[0, 1, UNIT, UNIT - 1, UNIT / 2]));
    memory.words[word::GAIN] = total(&memory);
    memory
}

// ---- one thing at a time

/// A setup that has everything, and one that has as little as can be.
fn setups() -> [Setup; 2] {
    let everything = Setup {
        graded: true,
        corners: [900.0, 9000.0],
        drives: [1.25, 3.0],
        drive: 1.5,
        pad: Some([7.0, 0.5]),
        darkens: true,
        gains: [1.5, 0.75],
        ducked: true,
        daylight: 0.25,
        rain: 0.75,
        send: 0.5,
        points: vec![10, 400, 400, END],
        values: vec![1.0, 0.5, 0.25, 0.75],
        kicks: vec![3, 70, 70, 900, END],
    };
    let little = Setup {
        graded: false,
        pad: None,
        darkens: false,
        ducked: false,
        points: Vec::new(),
        values: Vec::new(),
        kicks: Vec::new(),
        ..everything.clone()
    };
    [everything, little]
}

/// Every packed field and every kept list.
fn each_place(rng: &mut Rng, bench: &mut Bench) {
    for setup in setups() {
        let strip = good(rng, &setup, 1000, 0);
        let calls = [Call::running(vec![0.5, -2.0, 0.0]), Call::latching(), Call::Rest];
        bench.memory.become_as(&strip);
        for place in places(&strip) {
            let now = place.at(&strip);
            for value in edges(place, now) {
                for call in &calls {
                    place.put(&mut bench.memory, value);
                    if bench.call(ASKED, call) == 0 {
                        bench.memory.become_as(&strip);
                    }
                }
                place.put(&mut bench.memory, now);
            }
        }
    }
}

/// Every argument: lengths, outputs, the position, samples, controls, a setup's numbers, flags and lists.
fn each_argument(rng: &mut Rng, bench: &mut Bench) {
    for setup in setups() {
        let strip = good(rng, &setup, 100, 1);
        let case = |bench: &mut Bench, lent: [usize; 4], position: Option<u64>, call: &Call| {
            bench.memory.become_as(&strip);
            bench.memory.words[word::POSITION] = position.unwrap_or(100);
            bench.call(lent, call);
        };
        let samples = vec![0.5, 1024.0, -1024.0];
        for call in [Call::opening(&setup), Call::running(samples.clone()), Call::latching(), Call::Rest] {
            for list in 0..4 {
                for many in [0, 1, ASKED[list] - 1, ASKED[list], ASKED[list] + 1] {
                    let mut lent = ASKED;
                    lent[list] = many;
                    case(bench, lent, None, &call);
                }
            }
        }
        for outputs in [[6, 3], [5, 3], [7, 3], [0, 3], [3, 3], [6, 2], [6, 4], [6, 0], [6, 6], [0, 0]] {
            case(bench, ASKED, None, &Call::Run { samples: samples.clone(), drums: 0, outputs });
        }
        for position in END - 4..=END + 1 {
            case(bench, ASKED, Some(position), &Call::running(samples.clone()));
            case(bench, ASKED, Some(position), &Call::running(Vec::new()));
        }
        for at in 0..samples.len() {
            for bad in [1024.0000000000002, -1025.0, f64::NAN, f64::INFINITY, f64::NEG_INFINITY, f64::MAX, 1024.0] {
                let mut samples = samples.clone();
                samples[at] = bad;
                case(bench, ASKED, None, &Call::running(samples));
            }
        }
        for at in 0..2 {
            for x in FLOATS {
                let mut to = [0.25, 0.75];
                to[at] = x as f32;
                case(bench, ASKED, None, &Call::Latch { to, over: [0; 2] });
            }
            for len in WHOLES {
                let mut over = [3, 5];
                over[at] = len;
                case(bench, ASKED, None, &Call::Latch { to: [0.5; 2], over });
            }
        }
        each_setting(bench, &setup);
    }
}

/// What open is given.
fn each_setting(bench: &mut Bench, setup: &Setup) {
    let Numbers { f32s, f64s, flags } = setup.numbers();
    let mut open = |f32s: [f32; 8], f64s: [f64; 4], flags: u64, lists: Setup| {
        bench.call(ASKED, &Call::Open { f32s, f64s, flags, lists });
    };
    for x in FLOATS {
        for at in 0..8 {
            let mut f32s = f32s;
            f32s[at] = x as f32;
            open(f32s, f64s, flags, setup.clone());
        }
        for at in 0..4 {
            let mut f64s = f64s;
            f64s[at] = x;
            open(f32s, f64s, flags, setup.clone());
        }
    }
    for flags in (0..=16).chain([1 << 32, 1 << 63, u64::MAX]) {
        open(f32s, f64s, flags, setup.clone());
    }
    let mut lists = |points: Vec<u64>, values: Vec<f64>, kicks: Vec<u64>| {
        open(f32s, f64s, flags, Setup { points, values, kicks, ..setup.clone() });
    };
    for many in [0, 1, 255, 256, 257, 1000] {
        lists(vec![5; many], vec![0.5; many], Vec::new());
    }
    for many in [0, 1, 1023, 1024, 1025, 5000] {
        lists(Vec::new(), Vec::new(), vec![5; many]);
    }
    for (points, values) in [(0, 1), (1, 0), (3, 2), (256, 255)] {
        lists(vec![5; points], vec![0.5; values], Vec::new());
    }
    for x in FLOATS {
        for at in 0..3 {
            let mut values = vec![0.0, 0.5, 1.0];
            values[at] = x;
            lists(vec![1, 2, 3], values, Vec::new());
        }
    }
    for n in WHOLES {
        for at in 0..3 {
            let mut positions = vec![40, 900, 1 << 31];
            positions[at] = n;
            lists(positions.clone(), vec![0.5; 3], Vec::new());
            lists(Vec::new(), Vec::new(), positions);
        }
    }
}

// ---- anything

/// How much is lent of a list that has `has` elements and of which `asked` are asked: mostly enough.
fn lent(rng: &mut Rng, has: usize, asked: usize) -> usize {
    match rng.below(72) {
        0 => rng.below(asked as u64) as usize,
        1 => asked - 1,
        2 => 0,
        _ => rng.within(asked as u64, has as u64) as usize,
    }
}

/// Sets elements anywhere: a few, or as many as the list has.
fn scatter<T>(rng: &mut Rng, list: &mut [T], value: fn(&mut Rng) -> T) {
    if list.is_empty() {
        return;
    }
    let many = if rng.once_in(8) { list.len() as u64 } else { rng.within(1, 4) };
    for _ in 0..many {
        let at = rng.below(list.len() as u64) as usize;
        list[at] = value(rng);
    }
}

fn drawn(rng: &mut Rng, setup: &mut Setup) -> Call {
    match rng.below(6) {
        0 => {
            if rng.once_in(4) {
                spoil(rng, setup);
            }
            let Numbers { mut f32s, mut f64s, mut flags } = setup.numbers();
            if rng.once_in(4) {
                scatter(rng, &mut f64s, number);
                scatter(rng, &mut f32s, |rng| if rng.flag() { rng.any_f32() } else { number(rng) as f32 });
                flags = if rng.once_in(4) { word(rng) } else { flags };
            }
            Call::Open { f32s, f64s, flags, lists: setup.clone() }
        }
        1 => {
            let (mut to, mut over) = ([control(rng), control(rng)], [length(rng), length(rng)]);
            if rng.once_in(3) {
                scatter(rng, &mut to, |rng| number(rng) as f32);
            }
            if rng.once_in(3) {
                scatter(rng, &mut over, word);
            }
            Call::Latch { to, over }
        }
        2 => Call::Rest,
        _ => {
            let many = rng.below(120) as usize;
            let mut samples = signal::drawn(rng, many).to_vec();
            if rng.once_in(8) {
                scatter(rng, &mut samples, number);
            }
            let mut end = |elements: usize| {
                if rng.once_in(12) { rng.below((elements + GUARD) as u64) as usize } else { elements }
            };
            let outputs = [end(2 * many), end(many)];
            Call::Run { samples, drums: word(rng), outputs }
        }
    }
}

/// Elements of each list past the asked ones.
const BEYOND: usize = 16;

fn anything(rng: &mut Rng, bench: &mut Bench) {
    let mut setup = Setup::drawn(rng, 400);
    let mut strip = if rng.flag() {
        let len = rng.below(200) as usize;
        good(rng, &setup, len, BEYOND)
    } else {
        made(rng, BEYOND)
    };
    for _ in 0..rng.within(1, 6) {
        bench.memory.become_as(&strip);
        for _ in 0..rng.pick(&[0, 0, 1, 1, 1, 2, 5]) {
            let place = place(rng, &bench.memory);
            let value = value(rng, place, place.at(&bench.memory));
            place.put(&mut bench.memory, value);
        }
        match rng.below(24) {
            0 => scatter(rng, &mut bench.memory.numbers, number),
            1 => scatter(rng, &mut bench.memory.words, word),
            2 => scatter(rng, &mut bench.memory.counts, word),
            3 => scatter(rng, &mut bench.memory.store, number),
            // the filters' numbers and the lines, of which 4 asks nothing
            4 => {
                for filters in number::FILTERS {
                    scatter(rng, &mut bench.memory.numbers[filters], number);
                }
            }
            5 => {
                for line in [refusals::PLATE, refusals::WARP] {
                    scatter(rng, line.of_mut(&mut bench.memory.store), number);
                }
            }
            6 => bench.memory.words[word::POSITION] = END - rng.below(200),
            _ => {}
        }
        let has = bench.memory.lengths();
        let mut lengths = [0; 4];
        for i in 0..4 {
            lengths[i] = lent(rng, has[i], ASKED[i]);
        }
        // a strip that is accepted goes on as the call left it, one that is declined as it was before
        if bench.call(lengths, &drawn(rng, &mut setup)) == 0 {
            strip.become_as(&bench.memory);
        }
    }
}

pub fn run(rng: &mut Rng, budget: Budget) -> Report {
    let (memory, before) = (Memory::new(0), Memory::new(0));
    let (answers, met) = (BTreeMap::new(), BTreeMap::new());
    let mut bench = Bench { memory, before, report: Report::default(), answers, met };
    each_place(rng, &mut bench);
    each_argument(rng, &mut bench);
    let mut lists = 0;
    while budget.has_time(lists) {
        lists += 1;
        for _ in 0..8 {
            anything(rng, &mut bench);
        }
    }
    bench.finish()
}
