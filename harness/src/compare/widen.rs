//! Widening of every f32: Rust's `f64::from`. Every subnormal is tried.

use crate::part::goqhari_test_widen;
use crate::report::{Budget, Report};
use crate::rng::Rng;

pub const EDGES: [f32; 12] = [
    0.0,
    -0.0,
    1.0,
    -1.0,
    f32::MIN_POSITIVE,
    -f32::MIN_POSITIVE,
    f32::MAX,
    f32::MIN,
    f32::INFINITY,
    f32::NEG_INFINITY,
    f32::NAN,
    0.8,
];

fn case(report: &mut Report, x: f32) {
    let input = || format!("{x:e} (bits {:08x})", x.to_bits());
    report.compare(u64::from(x.abs().to_bits()), input, goqhari_test_widen(x), f64::from(x));
}

pub fn run(rng: &mut Rng, budget: Budget) -> Report {
    let mut report = Report::default();
    for edge in EDGES {
        for by in 0..=4u32 {
            case(&mut report, f32::from_bits(edge.to_bits().wrapping_add(by).wrapping_sub(2)));
        }
    }
    for bits in 0..1 << 23 {
        case(&mut report, f32::from_bits(bits));
        case(&mut report, -f32::from_bits(bits));
    }
    while budget.goes_on(report.cases) {
        case(&mut report, rng.any_f32());
    }
    report
}
