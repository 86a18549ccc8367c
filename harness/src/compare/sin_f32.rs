//! SIN of an f32: widened, worked, and narrowed. Subnormals too.

use std::f32::consts::TAU;

use oracle::elementary::Elementary32;

use crate::part::goqhari_test_sin_f32;
use crate::report::{Budget, Report};
use crate::rng::Rng;

pub const EDGES: [f32; 7] = [0.0, -0.0, f32::MIN_POSITIVE, 1e-40, TAU, f32::MAX, f32::NAN];

/// A phase within one cycle, or any pattern.
pub fn draw(rng: &mut Rng) -> f32 {
    if rng.once_in(4) { rng.any_f32() } else { (rng.unit() * f64::from(TAU)) as f32 }
}

pub fn run(rng: &mut Rng, budget: Budget) -> Report {
    let mut report = Report::default();
    let case = |report: &mut Report, x: f32| {
        let input = || format!("{x:e} (bits {:08x})", x.to_bits());
        report.compare(u64::from(x.abs().to_bits()), input, goqhari_test_sin_f32(x), x.sin01());
    };
    for edge in EDGES {
        case(&mut report, edge);
    }
    while budget.goes_on(report.cases) {
        case(&mut report, draw(rng));
    }
    report
}
