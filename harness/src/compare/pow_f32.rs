//! POW of two f32: widened, worked, and narrowed, on POW's arguments.

use oracle::elementary::Elementary32;

use super::pow;
use crate::part::goqhari_test_pow_f32;
use crate::report::{Budget, Report};
use crate::rng::Rng;

/// The limit's.
pub const EDGES: [(f32, f32); 2] = [(10.0, -1.0 / 20.0), (10.0, 0.0)];

pub fn inside((b, p): (f32, f32)) -> bool {
    pow::inside((f64::from(b), f64::from(p)))
}

pub fn draw(rng: &mut Rng) -> (f32, f32) {
    let (b, p) = pow::draw(rng);
    (b as f32, p as f32)
}

pub fn run(rng: &mut Rng, budget: Budget) -> Report {
    let mut report = Report::default();
    let case = |report: &mut Report, (b, p): (f32, f32)| {
        if inside((b, p)) {
            let input = || format!("({b:e}, {p:e}) (bits {:08x}, {:08x})", b.to_bits(), p.to_bits());
            report.compare(u64::from(b.to_bits()), input, goqhari_test_pow_f32(b, p), b.powf01(p));
        }
    };
    for edge in EDGES {
        case(&mut report, edge);
    }
    while budget.goes_on(report.cases) {
        case(&mut report, draw(rng));
    }
    report
}
