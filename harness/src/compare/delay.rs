//! A delay line's push, whole tap and fractional tap, from any ring and write count.

use oracle::stream::delay::DelayLine;

use crate::part;
use crate::report::{Budget, Report};
use crate::rng::Rng;

fn sample(rng: &mut Rng) -> f64 {
    match rng.below(8) {
        0 => rng.any_f64(),
        1 => rng.pick(&[0.0, -0.0, f64::NAN, f64::INFINITY]),
        _ => rng.between(-1.0, 1.0),
    }
}

fn delay(rng: &mut Rng, max: f64) -> f64 {
    match rng.below(6) {
        0 => rng.any_f64(),
        1 => rng.pick(&[0.0, -0.0, -1.0, f64::NAN, f64::INFINITY, f64::NEG_INFINITY, max]),
        2 => rng.near(max),
        3 => rng.between(0.0, max + 1.0).floor(),
        _ => rng.between(-1.0, max + 1.0),
    }
}

pub fn run(rng: &mut Rng, budget: Budget) -> Report {
    let mut report = Report::default();
    while budget.goes_on(report.cases) {
        let max = match rng.below(4) {
            0 => 2.0,
            1 => rng.between(0.0, 62.0),
            _ => rng.scaled(1.0, 1000.0),
        };
        let len = (max.ceil() as usize + 2).next_power_of_two();
        let mut ring: Vec<f64> = (0..len).map(|_| sample(rng)).collect();
        let mut written = if rng.flag() { rng.pick(&[0, 1, len as u64, 1 << 32]) } else { rng.below(1 << 32) };
        let mut line = DelayLine::of(ring.clone(), max, written);
        for _ in 0..16 {
            let x = sample(rng);
            part::push(&mut ring, written, x);
            line.push(x);
            written += 1;
            let patterns = |ring: &[f64]| ring.iter().map(|x| x.to_bits()).collect::<Vec<_>>();
            let same = patterns(&ring) == patterns(line.ring());
            report.compare(len as u64, || format!("a push of {x:?} into {len} at {written}"), same, true);
            let back = rng.below(2 * len as u64);
            let input = || format!("{back} back of {len} at {written}: {ring:?}");
            report.compare(len as u64, input, part::at(&ring, written, back), line.at(back as usize));
            let d = delay(rng, max);
            let input = || format!("a tap at {d:?} of {len}, at most {max:?}, at {written}: {ring:?}");
            report.compare(len as u64, input, part::tap(&ring, written, max, d), line.tap(d));
        }
    }
    report
}
