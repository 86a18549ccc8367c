//! TANH of every f64: 01 gives it no domain.

use super::unary;
use crate::part::goqhari_test_tanh;
use crate::report::{Budget, Report};
use crate::rng::Rng;

pub const EDGES: [f64; 17] = [
    0.0,
    -0.0,
    f64::NAN,
    f64::INFINITY,
    f64::NEG_INFINITY,
    f64::MIN_POSITIVE,
    -f64::MIN_POSITIVE,
    1e-310,
    1e-20,
    1e-160,
    1.0,
    -1.0,
    19.6016,
    20.0,
    -20.0,
    f64::MAX,
    f64::MIN,
];

/// Any pattern, any within ±20, any size within, or near 19.6, where the answer passes 1.
pub fn draw(rng: &mut Rng) -> f64 {
    match rng.below(4) {
        0 => rng.any_f64(),
        1 => rng.between(-20.0, 20.0),
        2 => {
            let v = rng.scaled(f64::from_bits(1), 20.0);
            if rng.flag() { v } else { -v }
        }
        _ => rng.between(19.5, 20.01),
    }
}

pub fn run(rng: &mut Rng, budget: Budget) -> Report {
    unary::run(rng, budget, &EDGES, |_| true, draw, |v| goqhari_test_tanh(v), oracle::elementary::tanh)
}
