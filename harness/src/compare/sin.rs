//! SIN, 0 ≤ v < 2^40, and every other f64 too: 01's text has a meaning there, and the part keeps to it.

use std::f64::consts::{FRAC_PI_2, PI, TAU};

use super::unary;
use crate::part::goqhari_test_sin;
use crate::report::{Budget, Report};
use crate::rng::Rng;

pub const END: f64 = 1099511627776.0;

pub const EDGES: [f64; 20] = [
    0.0,
    -0.0,
    f64::NAN,
    f64::MIN_POSITIVE,
    1e-310,
    1e-20,
    0.5,
    1.0,
    FRAC_PI_2,
    PI,
    TAU,
    1.5 * TAU,
    4294967296.0,
    END - 1.0,
    END,
    -1.0,
    -PI,
    f64::MAX,
    f64::INFINITY,
    f64::NEG_INFINITY,
];

/// Any pattern; a cycle, any size, near a quarter turn, near half a turn where k steps, or a warp's phase.
pub fn draw(rng: &mut Rng) -> f64 {
    match rng.below(8) {
        0 => rng.any_f64(),
        1 | 2 => rng.between(0.0, TAU),
        3 => rng.between(0.0, END),
        4 => rng.scaled(f64::from_bits(1), END),
        5 => {
            let quarters = rng.scaled(1.0, 1e11).floor();
            rng.near(quarters * FRAC_PI_2)
        }
        6 => {
            let turns = rng.scaled(1.0, 1e11).floor();
            rng.near((turns + 0.5) * TAU)
        }
        _ => {
            let n = rng.below(1 << 32);
            let hz = f64::from(rng.pick(&[0.7f32, 8.0]));
            TAU * hz / 44100.0 * n as f64
        }
    }
}

pub fn run(rng: &mut Rng, budget: Budget) -> Report {
    unary::run(rng, budget, &EDGES, |_| true, draw, |v| goqhari_test_sin(v), oracle::elementary::sin)
}
