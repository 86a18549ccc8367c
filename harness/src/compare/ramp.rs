//! A ramp's value and its latch, of both shapes, from any state that refusal 4 passes; and the daylight of a sample.

use oracle::Controls;
use oracle::stream::lanes::Automation;
use oracle::stream::ramp::{Ramp, Shape};

use crate::part::{goqhari_test_daylight, goqhari_test_ramp_at, goqhari_test_ramp_toward};
use crate::report::{Budget, Report};
use crate::rng::Rng;
use crate::setup::control;

const END: u64 = 1 << 32;

fn position(rng: &mut Rng) -> u64 {
    match rng.below(6) {
        0 => rng.pick(&[0, 1, END, END - 1]),
        1 => rng.within(0, END),
        _ => rng.below(300),
    }
}

/// A control, or a send of 1/1,024 to 1, which the decibel shape needs.
fn value(rng: &mut Rng, db: bool) -> f64 {
    match (db, rng.once_in(4)) {
        (false, _) => f64::from(control(rng)),
        (true, false) => rng.between(1.0 / 1024.0, 1.0),
        (true, true) => rng.pick(&[1.0, 1.0 / 1024.0, 0.5]),
    }
}

pub fn run(rng: &mut Rng, budget: Budget) -> Report {
    let mut report = Report::default();
    while budget.goes_on(report.cases) {
        let db = rng.flag();
        let shape = if db { Shape::Db } else { Shape::Linear };
        let ends = [value(rng, db), value(rng, db)];
        let span = [position(rng), position(rng)];
        let mut ramp = Ramp::of(ends[0], ends[1], span[0] as usize, span[1] as usize, shape);
        let n = if rng.flag() { position(rng) } else { span[0] + rng.below(span[1] + 2) };
        let input = || format!("{ends:?} over {span:?}, decibels {db}, at {n}");
        report.compare(n, input, goqhari_test_ramp_at(&ends, &span, db, n), ramp.at(n as usize));
        let (to, len) = (if rng.once_in(4) { ends[1] } else { value(rng, db) }, position(rng));
        let (mut our_ends, mut our_span) = (ends, span);
        goqhari_test_ramp_toward(&mut our_ends, &mut our_span, db, n, to, len);
        ramp.toward(n as usize, to, len as usize);
        let (their_ends, their_span) = ramp.parts();
        let input = || format!("{ends:?} over {span:?}, decibels {db}, at {n} toward {to:?} over {len}");
        report.compare(n, input, (our_ends, our_span), (their_ends, their_span.map(|at| at as u64)));
        daylight(&mut report, rng);
    }
    report
}

/// The daylight of a sample under a ramp that a latch made, from the latch on: no call looks before it.
fn daylight(report: &mut Report, rng: &mut Rng) {
    let [from, to] = [control(rng), control(rng)];
    let span = [position(rng), position(rng)];
    if from == to {
        return;
    }
    let mut automation = Automation::new(Controls { daylight: from, rain: 0.0 }, None);
    automation.latch(span[0] as usize, Controls { daylight: to, rain: 0.0 }, span[1] as usize, 0);
    let n = span[0] + if rng.flag() { position(rng) } else { rng.below(span[1] + 2) };
    let ends = [f64::from(from), f64::from(to)];
    let input = || format!("daylight {ends:?} over {span:?} at {n}");
    report.compare(n, input, goqhari_test_daylight(&ends, &span, n), automation.daylight(n as usize));
}
