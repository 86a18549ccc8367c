//! What the comparisons of functions of one f64 share.

use std::fmt::Debug;

use crate::report::{Alike, Budget, Report};
use crate::rng::Rng;

/// Compares on `edges` and their neighbours where `inside`, then on draws.
pub fn run<T: Alike + Debug>(
    rng: &mut Rng,
    budget: Budget,
    edges: &[f64],
    inside: fn(f64) -> bool,
    draw: fn(&mut Rng) -> f64,
    ours: fn(f64) -> T,
    oracle: fn(f64) -> T,
) -> Report {
    let mut report = Report::default();
    let case = |report: &mut Report, v: f64| {
        if inside(v) {
            let size = v.abs().to_bits();
            let input = || format!("{v:e} (bits {:016x})", v.to_bits());
            report.compare(size, input, ours(v), oracle(v));
        }
    };
    for &edge in edges {
        for by in 0..=8 {
            case(&mut report, f64::from_bits(edge.to_bits().wrapping_add(by).wrapping_sub(4)));
        }
    }
    while budget.goes_on(report.cases) {
        case(&mut report, draw(rng));
    }
    report
}
