//! EXP, size at most 64; beyond, while 2^k is a normal number; and NaN.

use std::f64::consts::LN_2;

use super::unary;
use crate::part::goqhari_test_exp;
use crate::report::{Budget, Report};
use crate::rng::Rng;

pub fn inside(v: f64) -> bool {
    v.is_nan() || v.abs() <= 708.0
}

pub const EDGES: [f64; 16] = [
    0.0,
    -0.0,
    f64::NAN,
    f64::MIN_POSITIVE,
    -f64::MIN_POSITIVE,
    1e-310,
    LN_2,
    -LN_2,
    0.5 * LN_2,
    -0.5 * LN_2,
    1.0,
    -1.0,
    64.0,
    -64.0,
    708.0,
    -708.0,
];

/// Any within 64 or beyond, any size, near a whole number of LN2, or near half of one more, where k steps.
pub fn draw(rng: &mut Rng) -> f64 {
    let v = match rng.below(5) {
        0 => rng.between(0.0, 64.0),
        4 => rng.between(64.0, 708.0),
        1 => rng.scaled(f64::from_bits(1), 64.0),
        2 => {
            let k = rng.below(93) as f64;
            rng.near(k * LN_2)
        }
        _ => {
            let k = rng.below(92) as f64;
            rng.near((k + 0.5) * LN_2)
        }
    };
    if rng.flag() { v } else { -v }
}

pub fn run(rng: &mut Rng, budget: Budget) -> Report {
    unary::run(rng, budget, &EDGES, inside, draw, |v| goqhari_test_exp(v), oracle::elementary::exp)
}
