//! The whole part of every f64: Rust's `as u64`, which holds what lies outside to the nearer end.

use super::floor;
use crate::part::goqhari_test_whole;
use crate::report::{Budget, Report};
use crate::rng::Rng;

fn case(report: &mut Report, x: f64) {
    let input = || format!("{x:e} (bits {:016x})", x.to_bits());
    report.compare(x.abs().to_bits(), input, goqhari_test_whole(x), x as u64);
}

pub fn run(rng: &mut Rng, budget: Budget) -> Report {
    let mut report = Report::default();
    for edge in floor::EDGES {
        for by in 0..=8 {
            case(&mut report, f64::from_bits(edge.to_bits().wrapping_add(by).wrapping_sub(4)));
        }
    }
    while budget.goes_on(report.cases) {
        case(&mut report, floor::draw(rng));
    }
    report
}
