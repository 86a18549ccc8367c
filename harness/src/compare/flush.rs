//! Flush of any f64: the Rust's with 02's floor, and 02's sentence by itself.

use oracle::stream::{FLUSH_FLOOR, flush};

use super::unary;
use crate::part::goqhari_test_flush;
use crate::report::{Budget, Report};
use crate::rng::Rng;

/// About the floor of 02, that of 01, the least normal f64 and 0, on both sides of 0.
const EDGES: [f64; 15] = [
    0.0,
    -0.0,
    f64::NAN,
    f64::INFINITY,
    f64::NEG_INFINITY,
    f64::MIN_POSITIVE,
    -f64::MIN_POSITIVE,
    FLUSH_FLOOR,
    -FLUSH_FLOOR,
    2.0 * FLUSH_FLOOR,
    -2.0 * FLUSH_FLOOR,
    FLUSH_FLOOR / 2.0,
    -FLUSH_FLOOR / 2.0,
    1e-20,
    -1e-20,
];

/// "Sizes strictly below 2^-64 now become 0 [..] 2^-64 and NaN stay." Times 2^64 is exact, or an infinity.
fn stated(v: f64) -> f64 {
    if v.abs() * 18_446_744_073_709_551_616.0 < 1.0 { 0.0 } else { v }
}

fn draw(rng: &mut Rng) -> f64 {
    match rng.below(3) {
        0 => rng.any_f64(),
        1 => rng.between(-2.0, 2.0) * FLUSH_FLOOR,
        _ => rng.pick(&[1.0, -1.0]) * rng.near(FLUSH_FLOOR),
    }
}

pub fn run(rng: &mut Rng, budget: Budget) -> Report {
    let twice = |v| [goqhari_test_flush(v); 2];
    unary::run(rng, budget, &EDGES, |_| true, draw, twice, |v| [flush(v), stated(v)])
}
