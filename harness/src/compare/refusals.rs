//! When the part declines, written from document 01's words and not from the part's code: for a call and what it is lent, every
//! ground and whether it holds. Of the part it knows only where a strip's fields stand (docs/DECISIONS.md 7, 8, 13 and 14).

use crate::library::{COUNTS, Memory, NUMBERS, STORE, WORDS};
use crate::setup::Setup;

/// Positions and lengths are at most this.
pub const END: u64 = 1 << 32;

/// The greatest step.
pub const UNIT: u64 = 1 << 40;

/// A list of the stores: where it begins, and how many places it has.
pub struct Part {
    pub at: usize,
    pub len: usize,
}

impl Part {
    const fn first(len: usize) -> Self {
        Self { at: 0, len }
    }

    /// The list behind this one.
    const fn then(&self, len: usize) -> Self {
        Self { at: self.at + self.len, len }
    }

    pub fn of<'a, T>(&self, store: &'a [T]) -> &'a [T] {
        &store[self.at..][..self.len]
    }

    pub fn of_mut<'a, T>(&self, store: &'a mut [T]) -> &'a mut [T] {
        &mut store[self.at..][..self.len]
    }
}

/// The sample store: the bus's lists, then the lane's.
pub const PLATE: Part = Part::first(47_104);
pub const NEEDS: Part = PLATE.then(883);
pub const WAITING: Part = NEEDS.then(440);
pub const WARP: Part = WAITING.then(64);
pub const VALUES: Part = WARP.then(256);

/// The count store: the bus's lists, then the lane's.
pub const FRAMES: Part = Part::first(883);
pub const STEPS: Part = FRAMES.then(221);
pub const KICKS: Part = STEPS.then(1024);
pub const MARKS: Part = KICKS.then(1024);
pub const POSITIONS: Part = MARKS.then(256);

/// Where the packed strip's numbers stand: the bus's, then the lane's.
pub mod number {
    use std::ops::Range;

    const BUS: usize = 0;
    pub const RELEASED: usize = BUS + 22;

    const LANE: usize = 23;
    /// Night and day; a fixed tone has the first, and its drive where the second would be.
    pub const CORNERS: [usize; 2] = [LANE, LANE + 1];
    pub const DRIVE: usize = LANE + 1;
    pub const DRIVES: [usize; 2] = [LANE + 2, LANE + 3];
    /// Swell rate and depth.
    pub const PAD: [usize; 2] = [LANE + 4, LANE + 5];
    pub const GAINS: [usize; 2] = [LANE + 6, LANE + 7];
    pub const DAYLIGHT: usize = LANE + 8;
    pub const RAIN: usize = LANE + 9;
    pub const SEND: usize = LANE + 10;

    /// The setup and the ramps' ends.
    pub const SET: Range<usize> = LANE..LANE + 15;

    /// What the filters have, by which no ground goes.
    pub const FILTERS: [Range<usize>; 2] = [BUS..RELEASED, SET.end..SET.end + 47];

    /// Where a section begins, five factors and then four past values: the plate's two highpasses; the tone's two, the bump,
    /// the rolloff's two.
    pub const SECTIONS: [usize; 7] =
        [BUS + 4, BUS + 13, SET.end, SET.end + 9, SET.end + 18, SET.end + 27, SET.end + 36];

    /// Where a one-pole begins, its pole and then its last output: the tank's two; the tilt.
    pub const POLES: [usize; 3] = [BUS, BUS + 2, SET.end + 45];
}

/// Where its words stand: the position, the bus's, then the lane's.
pub mod word {
    pub const POSITION: usize = 0;

    const BUS: usize = 1;
    pub const GAIN: usize = BUS;
    pub const HEAD: usize = BUS + 1;
    pub const QUEUED: usize = BUS + 2;

    const LANE: usize = 4;
    pub const TONE: usize = LANE;
    pub const PAD: usize = LANE + 1;
    pub const DARKENED: usize = LANE + 2;
    pub const DUCKED: usize = LANE + 3;
    pub const POINTS: usize = LANE + 4;
    /// Daylight's and rain's.
    pub const STARTS: [usize; 2] = [LANE + 5, LANE + 8];
    pub const LENGTHS: [usize; 2] = [LANE + 6, LANE + 9];
    pub const SHAPES: [usize; 2] = [LANE + 7, LANE + 10];
    pub const KICKED: usize = LANE + 11;
    pub const REACHED: usize = LANE + 12;
    pub const DUCKING: usize = LANE + 13;
}

/// A ground: its number, its name, and whether it holds.
pub struct Ground(pub u64, pub &'static str, pub bool);

#[derive(Default)]
pub struct Grounds(pub Vec<Ground>);

/// NaN is in no range.
fn within<T: PartialOrd>(x: T, a: T, b: T) -> bool {
    a <= x && x <= b
}

impl Grounds {
    fn put(&mut self, number: u64, name: &'static str, holds: bool) {
        self.0.push(Ground(number, name, holds));
    }

    /// "Checked in this order; the first that fits is returned."
    pub fn answer(&self) -> u64 {
        self.0.iter().filter(|ground| ground.2).map(|ground| ground.0).min().unwrap_or(0)
    }

    /// The answer's ground, where it has only one: without it the answer would be another.
    pub fn alone(&self) -> Option<&'static str> {
        let answer = self.answer();
        let mut all = self.0.iter().filter(|ground| ground.2 && ground.0 == answer);
        all.next().filter(|_| all.next().is_none()).map(|ground| ground.1)
    }

    /// "A lent store is shorter than 49,152 f64 or 4,096 u64 (all calls)." The packed strip is lent memory too.
    fn lent(&mut self, [numbers, words, store, counts]: [usize; 4]) {
        self.put(1, "a sample store too short", store < STORE);
        self.put(1, "a count store too short", counts < COUNTS);
        self.put(1, "too few numbers", numbers < NUMBERS);
        self.put(1, "too few words", words < WORDS);
    }

    /// "A setup number is NaN or outside its range." Those that the tone and the pad do not have are no setup numbers.
    fn numbers(&mut self, number: u64, s: &Setup) {
        let drive = |drive: f64| within(drive, 0.1, 8.0);
        let corner = |corner: f32| within(corner, 20.0, 20_000.0);
        self.put(number, "corner", !corner(s.corners[0]));
        self.put(number, "drive of a fixed tone", !s.graded && !drive(s.drive));
        self.put(number, "day corner", s.graded && !corner(s.corners[1]));
        self.put(number, "night drive", s.graded && !drive(f64::from(s.drives[0])));
        self.put(number, "day drive", s.graded && !drive(f64::from(s.drives[1])));
        self.put(number, "swell rate", s.pad.is_some_and(|pad| !within(pad[0], 0.0, 20.0)));
        self.put(number, "swell depth", s.pad.is_some_and(|pad| !within(pad[1], 0.0, 1.0)));
        self.put(number, "gain in", !within(s.gains[0], 0.0, 16.0));
        self.put(number, "gain out", !within(s.gains[1], 0.0, 16.0));
        self.put(number, "daylight", !within(s.daylight, 0.0, 1.0));
        self.put(number, "rain", !within(s.rain, 0.0, 1.0));
        self.put(number, "send", !within(s.send, 0.0, 1.0));
    }

    /// "A list is too long, falls, .. a value outside 0 to 1 or NaN, or a position above 2^32."
    fn lists(&mut self, number: u64, s: &Setup) {
        self.put(number, "too many points", s.points.len() > 256);
        self.put(number, "too many kicks", s.kicks.len() > 1024);
        self.put(number, "points fall", !s.points.is_sorted());
        self.put(number, "kicks fall", !s.kicks.is_sorted());
        self.put(number, "a value", !s.values.iter().all(|&value| within(value, 0.0, 1.0)));
        self.put(number, "a point", s.points.iter().any(|&at| at > END));
        self.put(number, "a kick", s.kicks.iter().any(|&at| at > END));
    }

    /// "The strip is malformed: ..", and what the packed one adds: a tag or flag above 1, or no f32 where one belongs.
    fn strip(&mut self, memory: &Memory) {
        let Memory { numbers, words, store, counts } = memory;
        self.put(4, "position", words[word::POSITION] > END);
        self.put(4, "daylight's start", words[word::STARTS[0]] > END);
        self.put(4, "daylight's length", words[word::LENGTHS[0]] > END);
        self.put(4, "rain's start", words[word::STARTS[1]] > END);
        self.put(4, "rain's length", words[word::LENGTHS[1]] > END);
        self.put(4, "the kick reached", words[word::REACHED] > words[word::KICKED]);
        self.put(4, "the kick that ducks", words[word::DUCKING] > words[word::KICKED]);
        self.put(4, "the queue's head", words[word::HEAD] >= 883);
        self.put(4, "queued needs", words[word::QUEUED] > 883);
        self.put(4, "a need", queue(words).any(|at| !within(store[at], 0.0, 1.0)));
        self.put(4, "released gain", !within(numbers[number::RELEASED], 0.0, 1.0));
        let steps = STEPS.of(counts);
        self.put(4, "a step", steps.iter().any(|&step| step > UNIT));
        self.put(4, "gain count", u128::from(words[word::GAIN]) != steps.iter().map(|&step| u128::from(step)).sum());
        let setup = kept(memory);
        self.numbers(4, &setup);
        self.lists(4, &setup);
        self.put(4, "the tone's tag", words[word::TONE] > 1);
        self.put(4, "the pad's tag", words[word::PAD] > 1);
        self.put(4, "rain-darkened", words[word::DARKENED] > 1);
        self.put(4, "ducked", words[word::DUCKED] > 1);
        self.put(4, "daylight's shape", words[word::SHAPES[0]] > 1);
        self.put(4, "rain's shape", words[word::SHAPES[1]] > 1);
        let long = |at: usize| f64::from(numbers[at] as f32) != numbers[at];
        let [graded, pad] = [word::TONE, word::PAD].map(|at| words[at] == 1);
        self.put(4, "corner no f32", long(number::CORNERS[0]));
        self.put(4, "day corner no f32", graded && long(number::CORNERS[1]));
        self.put(4, "night drive no f32", graded && long(number::DRIVES[0]));
        self.put(4, "day drive no f32", graded && long(number::DRIVES[1]));
        self.put(4, "swell rate no f32", pad && long(number::PAD[0]));
        self.put(4, "swell depth no f32", pad && long(number::PAD[1]));
        self.put(4, "daylight no f32", long(number::DAYLIGHT));
        self.put(4, "rain no f32", long(number::RAIN));
    }
}

/// The places of the needs that are queued, if the queue's numbers are any.
pub fn queue(words: &[u64]) -> impl Iterator<Item = usize> {
    let (head, queued) = (words[word::HEAD], words[word::QUEUED]);
    let many = if head < 883 && queued <= 883 { queued } else { 0 };
    (0..many).map(move |i| NEEDS.at + ((head + i) % 883) as usize)
}

/// What is in use of a kept list. Where more is said to be than it has places, a list too long by one that is fine otherwise.
fn used<T: Copy>(list: &[T], many: u64, filler: T) -> Vec<T> {
    if many <= list.len() as u64 { list[..many as usize].to_vec() } else { vec![filler; list.len() + 1] }
}

/// The setup and the lists that a packed strip and its stores keep.
pub fn kept(memory: &Memory) -> Setup {
    let Memory { numbers, words, store, counts } = memory;
    let short = |at: usize| numbers[at] as f32;
    Setup {
        graded: words[word::TONE] != 0,
        corners: number::CORNERS.map(short),
        drives: number::DRIVES.map(short),
        drive: numbers[number::DRIVE],
        pad: (words[word::PAD] != 0).then(|| number::PAD.map(short)),
        darkens: words[word::DARKENED] != 0,
        gains: number::GAINS.map(|at| numbers[at]),
        ducked: words[word::DUCKED] != 0,
        daylight: short(number::DAYLIGHT),
        rain: short(number::RAIN),
        send: numbers[number::SEND],
        points: used(POSITIONS.of(counts), words[word::POINTS], 77),
        values: used(VALUES.of(store), words[word::POINTS], 0.5),
        kicks: used(KICKS.of(counts), words[word::KICKED], 77),
    }
}

/// Open, of a setup by its numbers and flags, of which the setup's own are not asked, and its lists.
pub fn open(lent: [usize; 4], f32s: &[f32; 8], f64s: &[f64; 4], flags: u64, lists: &Setup) -> Grounds {
    let setup = Setup {
        graded: flags & 1 != 0,
        corners: [f32s[0], f32s[1]],
        drives: [f32s[2], f32s[3]],
        drive: f64s[0],
        pad: (flags & 2 != 0).then(|| [f32s[4], f32s[5]]),
        gains: [f64s[1], f64s[2]],
        daylight: f32s[6],
        rain: f32s[7],
        send: f64s[3],
        ..lists.clone()
    };
    let mut grounds = Grounds::default();
    grounds.lent(lent);
    grounds.put(2, "a flag that means nothing", flags > 15);
    grounds.numbers(2, &setup);
    grounds.put(3, "positions and values unequal in number", setup.points.len() != setup.values.len());
    grounds.lists(3, &setup);
    grounds
}

/// What run, latch and rest have in common: the first elements of a strip's memory are lent, so many.
fn of_strip(memory: &Memory, lent: [usize; 4]) -> Grounds {
    let mut grounds = Grounds::default();
    grounds.lent(lent);
    if grounds.answer() == 0 {
        grounds.strip(memory);
    }
    grounds
}

/// Run, with outputs of the given lengths.
pub fn run(memory: &Memory, lent: [usize; 4], samples: &[f64], [frames, gains]: [usize; 2]) -> Grounds {
    let mut grounds = of_strip(memory, lent);
    let end = u128::from(memory.words[word::POSITION]) + samples.len() as u128;
    grounds.put(5, "frame output", frames != 2 * samples.len());
    grounds.put(5, "count output", gains != samples.len());
    grounds.put(6, "past the end", end > u128::from(END));
    grounds.put(7, "a sample", !samples.iter().all(|x| x.is_finite() && x.abs() <= 1024.0));
    grounds
}

pub fn latch(memory: &Memory, lent: [usize; 4], [daylight, rain]: [f32; 2], [grading, darkening]: [u64; 2]) -> Grounds {
    let mut grounds = of_strip(memory, lent);
    grounds.put(8, "daylight to go to", !within(daylight, 0.0, 1.0));
    grounds.put(8, "rain to go to", !within(rain, 0.0, 1.0));
    grounds.put(8, "daylight's new length", grading > END);
    grounds.put(8, "rain's new length", darkening > END);
    grounds
}

pub fn rest(memory: &Memory, lent: [usize; 4]) -> Grounds {
    of_strip(memory, lent)
}

/// The rest answer: "every lane filter's past values, the last R samples of the warp and of every plate line, and the plate's
/// filters hold only zeros (-0 counts)".
pub fn rests(memory: &Memory) -> bool {
    let Memory { numbers, store, .. } = memory;
    let past = number::SECTIONS.iter().flat_map(|&at| &numbers[at + 5..at + 9]);
    let past = past.chain(number::POLES.iter().map(|&at| &numbers[at + 1]));
    past.chain(WARP.of(store)).chain(PLATE.of(store)).all(|&x| x == 0.0)
}
