//! Floor of every f64: Rust's.

use super::unary;
use crate::part::goqhari_test_floor;
use crate::report::{Budget, Report};
use crate::rng::Rng;

pub const EDGES: [f64; 20] = [
    0.0,
    -0.0,
    f64::NAN,
    f64::INFINITY,
    f64::NEG_INFINITY,
    f64::MIN_POSITIVE,
    -f64::MIN_POSITIVE,
    0.5,
    1.0,
    -0.5,
    -1.0,
    -2048.0,
    4294967296.0,
    4503599627370496.0,
    4503599627370495.5,
    -4503599627370496.0,
    9007199254740992.0,
    9223372036854775808.0,
    -9223372036854775808.0,
    18446744073709551616.0,
];

/// Any pattern, any size up to 2^64, or near a whole number, below 0 too.
pub fn draw(rng: &mut Rng) -> f64 {
    let v = match rng.below(3) {
        0 => rng.any_f64(),
        1 => rng.scaled(f64::from_bits(1), 18446744073709551616.0),
        _ => {
            let whole = rng.scaled(1.0, 9007199254740992.0).floor();
            rng.near(whole)
        }
    };
    if rng.flag() { v } else { -v }
}

pub fn run(rng: &mut Rng, budget: Budget) -> Report {
    unary::run(rng, budget, &EDGES, |_| true, draw, |v| goqhari_test_floor(v), f64::floor)
}
