//! COS, on SIN's arguments.

use super::{sin, unary};
use crate::part::goqhari_test_cos;
use crate::report::{Budget, Report};
use crate::rng::Rng;

pub fn run(rng: &mut Rng, budget: Budget) -> Report {
    unary::run(rng, budget, &sin::EDGES, |_| true, sin::draw, |v| goqhari_test_cos(v), oracle::elementary::cos)
}
