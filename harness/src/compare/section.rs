//! A filter section, from any nine numbers and along a signal; the two sections of an order-4 lowpass, made and retuned;
//! and the rate's own sections.

use oracle::stream::biquad::{butter_highpass, butter_lowpass, cookbook_bandpass, section};
use oracle::synth::{HEAD_BUMP_HZ, ROLLOFF_HZ};

use crate::part::{goqhari_test_fixed, goqhari_test_lowpass, goqhari_test_retuned, goqhari_test_section};
use crate::report::{Budget, Report};
use crate::rng::Rng;
use crate::setup::RATE;
use crate::signal::{AT_FLOOR, number};

fn lowpass(report: &mut Report, hz: f32, from: f32) {
    let oracle: Vec<[f64; 5]> = butter_lowpass(hz, 4, RATE).coefficients();
    let oracle = [oracle[0], oracle[1]];
    let [mut first, mut second] = [[0.0; 5]; 2];
    goqhari_test_lowpass(hz, &mut first, &mut second);
    report.compare(u64::from(hz.to_bits()), || format!("a lowpass at {hz}"), [first, second], oracle);
    goqhari_test_retuned(from, hz, &mut first, &mut second);
    report.compare(u64::from(hz.to_bits()), || format!("a lowpass from {from} to {hz}"), [first, second], oracle);
}

/// The head bump, the rolloff's two sections and the plate's highpass.
fn fixed(report: &mut Report) {
    let rolloff = butter_lowpass(ROLLOFF_HZ, 4, RATE).coefficients();
    let bump = cookbook_bandpass(HEAD_BUMP_HZ.0, HEAD_BUMP_HZ.1, RATE).coefficients();
    let highpass = butter_highpass(300.0, 2, RATE).coefficients();
    for (which, oracle) in [bump[0], rolloff[0], rolloff[1], highpass[0]].into_iter().enumerate() {
        let mut ours = [0.0; 5];
        goqhari_test_fixed(which as u64, &mut ours);
        report.compare(0, || format!("the rate's section {which}"), ours, oracle);
    }
}

fn step(report: &mut Report, nine: [f64; 9], x: f64) -> [f64; 9] {
    let mut ours = nine;
    let out = goqhari_test_section(&mut ours, x);
    let (next, oracle) = section(nine, x);
    report.compare(x.abs().to_bits(), || format!("section {nine:?}, sample {x:?}"), (ours, out), (next, oracle));
    next
}

pub fn run(rng: &mut Rng, budget: Budget) -> Report {
    let mut report = Report::default();
    for hz in [20.0, 60.0, 799.99994, 800.0, 1200.0, 6500.0, 11025.0, 19999.998, 20000.0] {
        lowpass(&mut report, hz, 1000.0);
    }
    fixed(&mut report);
    for x in AT_FLOOR {
        step(&mut report, [1.0, 0.0, 0.0, 0.0, 0.0, 0.0, 0.0, 0.0, 0.0], x);
    }
    while budget.goes_on(report.cases) {
        if rng.flag() {
            step(&mut report, std::array::from_fn(|_| number(rng)), number(rng));
            continue;
        }
        let hz = rng.scaled(20.0, 20000.0) as f32;
        lowpass(&mut report, hz, rng.scaled(20.0, 20000.0) as f32);
        let coefficients = butter_lowpass(hz, 4, RATE).coefficients();
        let five = rng.pick(&coefficients);
        let mut nine: [f64; 9] = std::array::from_fn(|i| if i < 5 { five[i] } else { 0.0 });
        for _ in 0..64 {
            nine = step(&mut report, nine, number(rng));
        }
    }
    report
}
