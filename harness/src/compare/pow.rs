//! POW(b, p), b normal and above 0, p·LN(b) as EXP takes it.

use super::{exp, ln};
use crate::part::goqhari_test_pow;
use crate::report::{Budget, Report};
use crate::rng::Rng;

/// The bases and exponents that the part's constants have, and ends of ranges.
pub const EDGES: [(f64, f64); 12] = [
    (10.0, -6.0 / 20.0),
    (10.0, -1.0 / 20.0),
    (2.0, 1.0 / 4410.0),
    (2.0, 1.0 / 4800.0),
    (800.0, 0.0),
    (800.0, -0.0),
    (20.0, 1.0),
    (20000.0, 1.0),
    (1000.0, f64::NAN),
    (f64::MIN_POSITIVE, 64.0 / 709.0),
    (f64::MAX, 64.0 / 710.0),
    (1.0, f64::MAX),
];

/// A corner or a ratio of corners to a part of 1; any base, the exponent over all that EXP takes.
pub fn draw(rng: &mut Rng) -> (f64, f64) {
    match rng.below(3) {
        0 => (rng.between(20.0, 20000.0), rng.unit()),
        1 => (f64::from(rng.between(20.0, 20000.0) as f32) / f64::from(rng.between(20.0, 20000.0) as f32), rng.unit()),
        _ => {
            let b = ln::draw(rng);
            (b, exp::draw(rng) / oracle::elementary::ln(b))
        }
    }
}

pub fn inside((b, p): (f64, f64)) -> bool {
    ln::inside(b) && exp::inside(p * oracle::elementary::ln(b))
}

pub fn run(rng: &mut Rng, budget: Budget) -> Report {
    let mut report = Report::default();
    let case = |report: &mut Report, (b, p): (f64, f64)| {
        if inside((b, p)) {
            let input = || format!("({b:e}, {p:e}) (bits {:016x}, {:016x})", b.to_bits(), p.to_bits());
            report.compare(b.to_bits(), input, goqhari_test_pow(b, p), oracle::elementary::pow(b, p));
        }
    };
    for edge in EDGES {
        case(&mut report, edge);
    }
    while budget.goes_on(report.cases) {
        case(&mut report, draw(rng));
    }
    report
}
