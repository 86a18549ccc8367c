//! The sweep at n by the corner that it leaves, tied points merged for the Rust (02, E8), the swept corner, and a graded corner and drive.

use oracle::stream::lanes::{Grade, Sweep, swept};

use super::lists::Met;
use crate::part::{self, goqhari_test_grade_corner, goqhari_test_grade_drive, goqhari_test_swept};
use crate::report::{Budget, Report};
use crate::rng::Rng;
use crate::setup::{Setup, merged};

fn openness(rng: &mut Rng) -> f64 {
    match rng.below(6) {
        0 => rng.pick(&[0.0, 1.0, -0.0, 0.5, f64::MIN_POSITIVE, 0.9999999999999999]),
        _ => rng.unit(),
    }
}

/// Where the Rust, given the list as it stands, would leave another corner: before a tie, and from it on.
const MATTERS: [&str; 2] = ["a tie neared", "a tie reached"];

pub fn run(rng: &mut Rng, budget: Budget) -> Report {
    let mut report = Report::default();
    let mut met = Met::default();
    while budget.goes_on(report.cases) {
        let Setup { points, values, corners, drives, .. } = Setup::drawn(rng, 300);
        let given: Vec<_> = points.iter().map(|&at| at as usize).zip(values.iter().copied()).collect();
        let lowest = merged(&points, &values);
        let [given, sweep] = [given, lowest.clone()].map(Sweep::new);
        for _ in 0..32 {
            let n = if points.is_empty() || rng.flag() {
                rng.below(320)
            } else {
                (rng.pick(&points) + rng.below(3)).saturating_sub(1)
            };
            let own = rng.pick(&[20_000.0, 800.00006, 1e30, corners[0]]);
            let input = || format!("{n} of points {points:?} with values {values:?}, own corner {own:?}");
            let ours = part::sweep(&points, &values, own, n);
            let [as_given, corner] = [&given, &sweep].map(|sweep| swept(own, sweep.at(n as usize)));
            report.compare(points.len() as u64, input, ours, corner);
            let last_given = points.partition_point(|&at| at <= n).checked_sub(1).map(|i| values[i]);
            let last_merged = lowest.partition_point(|&(at, _)| at as u64 <= n).checked_sub(1).map(|i| lowest[i].1);
            let reached = last_given != last_merged;
            met.note(if reached { "a tie reached" } else { "a tie neared" }, as_given != corner);
        }
        let [night, day] = corners;
        let x = openness(rng);
        let input = || format!("own corner {night:?} swept at {x:?}");
        report.compare(u64::from(night.to_bits()), input, goqhari_test_swept(night, x), swept(night, x));
        let grade = Grade::new(corners, drives);
        let input = || format!("a corner from {night:?} to {day:?} at {x:?}");
        let ours = goqhari_test_grade_corner(night, day, x);
        report.compare(u64::from(night.to_bits()), input, ours, grade.corner_hz(x));
        let [night, day] = drives;
        let input = || format!("a drive from {night:?} to {day:?} at {x:?}");
        report.compare(u64::from(night.to_bits()), input, goqhari_test_grade_drive(night, day, x), grade.drive(x));
    }
    met.missed(&MATTERS, &format!("{} cases", report.cases), &mut report);
    report
}
