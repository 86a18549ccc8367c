//! The one-pole: its step from any state, the tilt under any rain, by value and lent, and the poles that the rate has.

use oracle::stream::onepole::{OnePole, Tilt};
use oracle::stream::rain;

use crate::part::{goqhari_test_onepole, goqhari_test_pole, goqhari_test_tilt, goqhari_test_tilt_lent};
use crate::report::{Budget, Report};
use crate::rng::Rng;
use crate::setup::RATE;
use crate::signal::{AT_FLOOR, number};

/// A one-pole of pole and y, and as the tilt's under the rain.
fn step(report: &mut Report, state: [f64; 2], wet: f64, x: f64) {
    let mut ours = state;
    let out = goqhari_test_onepole(&mut ours, x);
    let mut oracle = OnePole::of(state[0], state[1]);
    let y = oracle.lowpass(x);
    let input = || format!("pole and y {state:?}, sample {x:?}");
    report.compare(x.abs().to_bits(), input, (ours, out), (oracle.parts(), y));
    let mut oracle = Tilt::of(state[0], state[1]);
    let mut one = [x];
    oracle.process_lifted(&mut one, |_| rain::lift(wet));
    let (mut ours, mut lent) = (state, state);
    let out = goqhari_test_tilt(&mut ours, wet, x);
    let lent_out = goqhari_test_tilt_lent(&mut lent, wet, x);
    for (form, ours) in [("tilt", (ours, out)), ("lent tilt", (lent, lent_out))] {
        let input = || format!("the {form}, pole and y {state:?}, rain {wet:?}, sample {x:?}");
        report.compare(x.abs().to_bits(), input, ours, (oracle.parts(), one[0]));
    }
}

pub fn run(rng: &mut Rng, budget: Budget) -> Report {
    let mut report = Report::default();
    for (damping, hz) in [(false, 1200.0), (true, 5000.0)] {
        let pole = OnePole::new(hz, RATE).parts()[0];
        report.compare(0, || format!("the pole of {hz}"), goqhari_test_pole(damping), pole);
    }
    for x in AT_FLOOR {
        step(&mut report, [0.0, 0.0], 0.0, x);
    }
    while budget.goes_on(report.cases) {
        let state = [number(rng), number(rng)];
        let wet = if rng.flag() { rng.unit() } else { rng.pick(&[0.0, 1.0, -0.0, 0.5]) };
        step(&mut report, state, wet, number(rng));
    }
    report
}
