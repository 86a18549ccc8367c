//! LN of a normal number above 0, since 01 takes m·2^k with 1 ≤ m < 2. Outside 01's text has no meaning.

use std::f64::consts::SQRT_2;

use super::unary;
use crate::part::goqhari_test_ln;
use crate::report::{Budget, Report};
use crate::rng::Rng;

pub fn inside(x: f64) -> bool {
    x.is_normal() && x > 0.0
}

pub const EDGES: [f64; 10] = [
    f64::MIN_POSITIVE,
    1e-300,
    0.5,
    1.0,
    SQRT_2,
    2.0,
    3.0,
    10.0,
    4503599627370496.0,
    f64::MAX,
];

/// Any size, near a power of two, near 1, or of the size of a corner, a drive or a gain.
pub fn draw(rng: &mut Rng) -> f64 {
    match rng.below(4) {
        0 => rng.scaled(f64::MIN_POSITIVE, f64::MAX),
        1 => {
            let field = rng.within(2, 2046);
            rng.near(f64::from_bits(field << 52))
        }
        2 => 1.0 + rng.between(-1.0, 1.0) * rng.scaled(1e-16, 0.5),
        _ => rng.between(0.001, 20000.0),
    }
}

pub fn run(rng: &mut Rng, budget: Budget) -> Report {
    unary::run(rng, budget, &EDGES, inside, draw, |v| goqhari_test_ln(v), oracle::elementary::ln)
}
