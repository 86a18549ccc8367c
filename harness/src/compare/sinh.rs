//! sinh, on EXP's arguments.

use super::{exp, unary};
use crate::part::goqhari_test_sinh;
use crate::report::{Budget, Report};
use crate::rng::Rng;

pub fn run(rng: &mut Rng, budget: Budget) -> Report {
    unary::run(rng, budget, &exp::EDGES, exp::inside, exp::draw, |v| goqhari_test_sinh(v), oracle::elementary::sinh)
}
