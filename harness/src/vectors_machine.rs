//! Prints what crate played computes. `lists`: its specs/Lists.antt, lists of calls and what the oracle answers to them; at a low rate
//! the look-ahead, the predelay and the plate's lines are so short that a few samples come back from all of them. `stretches`: its
//! proofs/Stretches.antt, what the oracle's lane gave in each stretch of a list and where it then stood.
#![allow(dead_code)]

mod antt;
mod compare;
mod library;
mod part;
mod report;
mod rng;
mod setup;
mod shrink;
mod signal;
mod strip;

use oracle::stream::FLUSH_FLOOR;

use antt::{list, samples, single, truth};
use rng::Rng;
use setup::{RATE, Setup};
use strip::Strip;

enum Call {
    Run(Vec<f64>, bool),
    Move([f32; 2], [u64; 2]),
    Ask,
}

fn controls([daylight, rain]: [f32; 2], [grading, darkening]: [u64; 2]) -> String {
    let [daylight, rain] = [daylight, rain].map(single);
    format!("(record {{ daylight = {daylight}; grading = {grading}; rain = {rain}; darkening = {darkening} }})")
}

impl Call {
    fn word(&self) -> String {
        match self {
            Call::Run(x, drums) => {
                let k = x.len();
                format!("run ({}) {} (room {}) (counts {k})", samples(x), truth(*drums), 2 * k)
            }
            Call::Move(to, over) => format!("move {}", controls(*to, *over)),
            Call::Ask => "ask".into(),
        }
    }

    /// What an accepted call feeds the machine.
    fn events(&self) -> String {
        match self {
            Call::Run(x, drums) => format!("sampled {} ({})", truth(*drums), samples(x)),
            Call::Move(to, over) => format!("(latch {} ∷ [])", controls(*to, *over)),
            Call::Ask => "[]".into(),
        }
    }

    /// The oracle's answer.
    fn answer(&self, strip: &mut Strip) -> Answer {
        match self {
            Call::Run(x, drums) => strip.dry(x, *drums).map_or_else(Answer::Declined, |y| {
                let (frames, gains) = strip.wet(&y);
                Answer::Ran(y, frames, gains)
            }),
            Call::Move(to, over) => match strip.latch(*to, *over) {
                0 => Answer::Moved,
                number => Answer::Declined(number),
            },
            Call::Ask => Answer::Rests(strip.rest(), strip.tape.at_rest()),
        }
    }
}

enum Answer {
    /// The lane's samples, and what is made of them.
    Ran(Vec<f64>, Vec<f32>, Vec<u64>),
    Moved,
    /// The strip's, and the lane's.
    Rests(bool, bool),
    Declined(u64),
}

impl Answer {
    fn word(&self) -> String {
        match self {
            Answer::Ran(_, frames, gains) => {
                format!("ran ({}) ({})", list(frames, |&x| single(x)), list(gains, u64::to_string))
            }
            Answer::Moved => "moved".into(),
            Answer::Rests(still, _) => format!("rests {}", truth(*still)),
            Answer::Declined(number) => format!("declined {number}"),
        }
    }

    /// What the call gets of the lane of the list that `name` names.
    fn dry(&self, name: &str) -> String {
        match self {
            Answer::Ran(y, ..) => format!("sounds ({})", given(name, &samples(y))),
            Answer::Moved => "moves".into(),
            Answer::Rests(_, still) => format!("asks {}", truth(*still)),
            Answer::Declined(number) => format!("refuses {number}"),
        }
    }

    fn samples(&self) -> &[f64] {
        if let Answer::Ran(y, ..) = self { y } else { &[] }
    }
}

/// What the lane of the list that `name` names gives the bus with its samples.
fn given(name: &str, samples: &str) -> String {
    format!("given {name}.setup ({samples})")
}

/// The lane's samples.
fn dry(answers: &[Answer]) -> String {
    samples(&answers.iter().flat_map(|answer| answer.samples().to_vec()).collect::<Vec<_>>())
}

/// A list of calls, in stretches that antt computes one by one.
struct Played {
    name: &'static str,
    why: &'static str,
    rate: u32,
    setup: Setup,
    stretches: Vec<Vec<Call>>,
}

/// A stretch's answers, and the lane as it then stands.
struct Told {
    answers: Vec<Answer>,
    lane: String,
}

impl Played {
    fn told(&self) -> Vec<Told> {
        let mut strip = Strip::open(&self.setup, self.rate);
        let mut tell = |stretch: &Vec<Call>| Told {
            answers: stretch.iter().map(|call| call.answer(&mut strip)).collect(),
            lane: antt::lane(&strip, self.name),
        };
        self.stretches.iter().map(&mut tell).collect()
    }

    fn answers(&self) -> Vec<Answer> {
        self.told().into_iter().flat_map(|told| told.answers).collect()
    }

    /// What Lists.antt has of it.
    fn names(&self) -> String {
        format!("{}, {}", self.name, self.joined("", ", "))
    }

    fn print_head(&self, kind: &str) {
        let Self { name, why, rate, setup, .. } = self;
        println!("\n-- {why}");
        println!("abbrev pub {name} : {kind}");
        println!("{name} = record {{");
        println!("  rate = {rate};\n  setup = {};\n  lists = {};", antt::setup(setup), antt::lists(setup));
    }

    /// What is named by each stretch, put together.
    fn joined(&self, what: &str, by: &str) -> String {
        let names: Vec<String> = (0..self.stretches.len()).map(|k| format!("{}{what}{k}", self.name)).collect();
        names.join(by)
    }

    fn print_stretches(&self, of: &str, word: impl Fn(&[Call]) -> String) {
        for (k, stretch) in self.stretches.iter().enumerate() {
            println!("\nabbrev pub {0}{k} : List {of}\n{0}{k} = {1}", self.name, word(stretch));
        }
    }

    /// As a list of calls with its answers.
    fn print_calls(&self) {
        self.print_stretches("Call", |stretch| list(stretch, Call::word));
        self.print_head("Played");
        println!("  calls = {};", self.joined("", " ++ "));
        println!("  answers = {};\n}}", list(&self.answers(), Answer::word));
    }

    /// As events with the lane's samples.
    fn print_events(&self) {
        self.print_stretches("Event", |stretch| {
            stretch.iter().map(Call::events).collect::<Vec<_>>().join(" ++ ")
        });
        self.print_head("Sounded");
        println!("  events = {};", self.joined("", " ++ "));
        println!("  samples = {};\n}}", dry(&self.answers()));
    }

    /// Each stretch of the lane by a step over `of`, and then all of them.
    fn print_proofs(&self, step: &str, of: &str, given: &str, dry: impl Fn(&[Answer]) -> String) {
        let Self { name, rate, .. } = self;
        let told = self.told();
        let stretch = format!("Stretch ({step} (rate_of {rate}))");
        let fresh = format!("(at 0 (fresh_lane (rate_of {rate}) {name}.setup {name}.lists))");
        println!("\n-- {name}");
        for (k, Told { answers, lane }) in told.iter().enumerate() {
            let next = k + 1;
            println!("abbrev {name}_lane{next} : At LaneMachine\n{name}_lane{next} =\n    {lane}\n");
            println!("abbrev {name}_dry{k} : List {given}\n{name}_dry{k} = {}\n", dry(answers));
            let from = if k == 0 { fresh.clone() } else { format!("{name}_lane{k}") };
            println!("{name}_stretch{k} : {stretch} {from} {name}{k} {name}_lane{next} {name}_dry{k}");
            println!("unfolding computed\n{name}_stretch{k} = record {{ rolls = refl }}\n");
        }
        println!("abbrev pub {name}_dry : List {given}\n{name}_dry = {}\n", self.joined("_dry", " ++ "));
        println!("pub {name}_lane : {stretch} {fresh} {name}.{of} {name}_lane{} {name}_dry", told.len());
        println!("{name}_lane = {}", self.joined("_stretch", " & "));
    }
}

/// Samples of few digits.
fn drawn(rng: &mut Rng, k: usize) -> Vec<f64> {
    (0..k).map(|_| rng.between(-64.0, 64.0).round() / 16.0).collect()
}

/// Whether left and right are apart in three of four frames or more, and the gain moves in half of them or more.
fn tells_much(played: &Played) -> bool {
    let (mut frames, mut counts) = (Vec::new(), Vec::new());
    for answer in played.answers() {
        if let Answer::Ran(_, more, gains) = answer {
            frames.extend(more);
            counts.extend(gains);
        }
    }
    let apart = frames.chunks(2).filter(|side| side[0] != side[1]).count();
    let moves = counts.windows(2).filter(|pair| pair[0] != pair[1]).count();
    4 * apart >= 3 * counts.len() && 2 * moves >= counts.len()
}

/// Everything that a setup can have.
fn full() -> Setup {
    Setup {
        graded: true,
        corners: [300.0, 1100.0],
        drives: [1.25, 3.0],
        drive: 1.0,
        pad: Some([7.5, 0.5]),
        darkens: true,
        gains: [4.0, 16.0],
        ducked: true,
        daylight: 0.25,
        rain: 0.5,
        send: 0.75,
        points: vec![1, 1, 40, 40, 40, 60, 60],
        values: vec![0.75, 1.0, 0.5, 0.25, 0.625, 0.9375, 0.875],
        kicks: vec![1, 2, 20, 33],
    }
}

/// With latches, rests and declined calls among the runs.
fn everything(rng: &mut Rng) -> Played {
    let mut run = |k, drums| Call::Run(drawn(rng, k), drums);
    let stretches = vec![
        vec![
            Call::Ask,
            run(3, true),
            Call::Move([1.0, 0.0], [40, 30]),
            Call::Run(vec![1.0, 1024.5], true),
            run(13, false),
        ],
        vec![run(7, false), Call::Move([1.5, 0.0], [3, 2]), Call::Ask, run(9, true)],
        vec![run(16, true)],
        vec![Call::Move([0.5, 0.75], [10, 20]), run(5, true), run(0, false), run(11, false), Call::Ask],
    ];
    let why = "graded, swelling, swept, darkened, ducked; latches, rests and declined calls among the runs";
    Played { name: "everything", why, rate: 240, setup: full(), stretches }
}

/// Nothing that a setup can leave out.
fn bare() -> Setup {
    Setup {
        graded: false,
        corners: [60.0, 60.0],
        drive: 2.5,
        pad: None,
        darkens: false,
        gains: [1.5, 4.0],
        ducked: false,
        points: Vec::new(),
        values: Vec::new(),
        kicks: Vec::new(),
        ..full()
    }
}

fn plain(rng: &mut Rng) -> Played {
    let mut run = |k, drums| Call::Run(drawn(rng, k), drums);
    let stretches = vec![vec![run(5, true), run(0, false), run(7, false)]];
    Played { name: "plain", why: "a fixed tone and nothing else", rate: 240, setup: bare(), stretches }
}

/// So faint that the lane's sections come to the flush floor and pass it.
fn faint(rng: &mut Rng) -> Played {
    let samples = drawn(rng, 12).into_iter().map(|x| x * 16.0 * FLUSH_FLOOR).collect();
    let why = "the same, so faint that the lane's sections come to the flush floor";
    Played { name: "faint", why, rate: 240, setup: bare(), stretches: vec![vec![Call::Run(samples, false), Call::Ask]] }
}

/// The part's own rate, at which the warp delays by some 26 samples.
fn cd(rng: &mut Rng) -> Played {
    let setup = Setup {
        corners: [900.0, 6000.0],
        gains: [1.5, 1.0],
        points: vec![3, 3, 20, 20, 20, 45, 45],
        kicks: vec![4, 9, 30],
        ..full()
    };
    let mut run = |k, drums| Call::Run(drawn(rng, k), drums);
    let stretches = vec![
        vec![run(6, true), Call::Move([1.0, 0.0], [40, 30]), run(4, false)],
        vec![run(10, true)],
        vec![run(4, false), Call::Move([0.5, 0.75], [10, 20]), run(6, true)],
        vec![run(10, false)],
    ];
    Played { name: "cd", why: "the part's own rate, everything that a setup can have", rate: RATE, setup, stretches }
}

const LISTS: &str = "-- Lists of calls and of samples, and what the Rust gave for them. Made by harness/vectors: no line here was written by hand.
use Rattle.std.specs.Prelude.{true, false, List, [], ◌∷◌, ◌++◌, None, Some}
use Rattle.automation.specs.declared.Tone.TheVariants.{Fixed, Graded}
use Rattle.strip.specs.Machine.{Event, latch}
use Rattle.strip.specs.Promise.{Call, run, move, ask, ran, moved, rests, declined}
use Rattle.played.specs.Played.{Played, Sounded, double, single, room, counts, sampled}";

const STRETCHES: &str = "-- What the Rust's lane gave in each stretch of a list and where it then stood, and that antt computes the same of the definition. Made by harness/vectors: no line here was written by hand. Assumes nothing.
use mathlib.Core.Path.{refl}
use mathlib.Core.Bool.{true, false}
use mathlib.Core.List.{List, [], ◌∷◌, ◌++◌}
use Rattle.rate.specs.Rate.{rate_of}
use Rattle.strip.specs.Machine.{LaneMachine, Sent, fresh_lane}
use Rattle.played.specs.Played.{double, given}
use Rattle.played.proofs.Apart.{Stretch, ◌&◌, At, at, Dry, sounds, moves, asks, refuses, lane_fed, lane_call}
use Rattle.played.proofs.Computed.{computed}
use Rattle.played.proofs.Written.{line, section, pole, lane}";

fn main() {
    let mut rng = Rng::new(7);
    let [everything, plain, cd, faint] = [everything, plain, cd, faint].map(|list| list(&mut rng));
    assert!(tells_much(&everything), "the plate or the ceiling is hardly heard");
    match std::env::args().nth(1).as_deref() {
        Some("lists") => {
            println!("{LISTS}");
            everything.print_calls();
            plain.print_calls();
            faint.print_calls();
            cd.print_events();
        }
        Some("stretches") => {
            println!("{STRETCHES}");
            println!("use Rattle.played.specs.Lists.{{{}, {}}}", everything.names(), cd.names());
            everything.print_proofs("lane_call", "calls", "Dry", |answers| list(answers, |a| a.dry(everything.name)));
            cd.print_proofs("lane_fed", "events", "Sent", |answers| given(cd.name, &dry(answers)));
        }
        _ => panic!("vectors_machine lists, or vectors_machine stretches"),
    }
}
