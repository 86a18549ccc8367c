//! Values as antt has them, by the names that the head of each file made by vectors_machine brings.

use oracle::stream::ramp::Ramp;

use crate::setup::Setup;
use crate::strip::Strip;

pub fn double(x: f64) -> String {
    format!("double {:#x}", x.to_bits())
}

fn doubles(x: &[f64]) -> String {
    x.iter().map(|&x| format!(" ({})", double(x))).collect()
}

pub fn single(x: f32) -> String {
    format!("single {:#x}", x.to_bits())
}

pub fn list<T>(items: &[T], word: impl Fn(&T) -> String) -> String {
    items.iter().map(|item| word(item) + " ∷ ").collect::<String>() + "[]"
}

pub fn samples(x: &[f64]) -> String {
    list(x, |&x| double(x))
}

pub fn truth(b: bool) -> &'static str {
    if b { "true" } else { "false" }
}

pub fn setup(s: &Setup) -> String {
    let tone = if s.graded {
        let [night, day] = s.corners.map(single);
        let [quiet, loud] = s.drives.map(single);
        format!("Graded ({night}) ({day}) ({quiet}) ({loud})")
    } else {
        format!("Fixed ({}) ({})", single(s.corners[0]), double(s.drive))
    };
    let pad = s.pad.map_or("None".into(), |[hz, depth]| format!("Some (record {{ hz = {}; depth = {} }})", single(hz), single(depth)));
    let [input, output] = s.gains.map(double);
    format!(
        "record {{ tape = record {{ tone = {tone}; pad = {pad}; darkened = {}; input = {input}; output = {output}; ducked = {} }}; \
         daylight = {}; rain = {}; send = {} }}",
        truth(s.darkens),
        truth(s.ducked),
        single(s.daylight),
        single(s.rain),
        double(s.send)
    )
}

pub fn lists(s: &Setup) -> String {
    format!(
        "record {{ positions = {}; values = {}; kicks = {} }}",
        list(&s.points, u64::to_string),
        samples(&s.values),
        list(&s.kicks, u64::to_string)
    )
}

fn ramp(ramp: &Ramp) -> String {
    let (ends, [start, len]) = ramp.parts();
    format!("(line{} {start} {len})", doubles(&ends))
}

/// The lane as it stands in the oracle's strip, under the setup and lists of the list that `name` names.
pub fn lane(strip: &Strip, name: &str) -> String {
    let ramps: Vec<String> = strip.automation.ramps().iter().map(|&one| ramp(one)).collect();
    let sections: Vec<String> =
        strip.tape.sections().iter().map(|section| format!("\n    (section{})", doubles(section))).collect();
    format!(
        "lane {} {name}.setup {name}.lists {}{}\n    ({})\n    (pole{})\n    ({})",
        strip.n,
        ramps.join(" "),
        sections.concat(),
        samples(&strip.tape.warped()),
        doubles(&strip.tape.tilt()),
        list(&strip.tape.marks(), |&mark| truth(mark).into())
    )
}
