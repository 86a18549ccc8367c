//! The comparisons, a file each: `run` draws fresh cases until its budget is spent, and reports the differences.

use crate::report::{Budget, Report};
use crate::rng::Rng;

pub mod abuse;
pub mod attack;
pub mod ceiling;
pub mod cos;
pub mod delay;
pub mod duck;
pub mod exp;
pub mod floor;
pub mod flush;
pub mod lists;
pub mod ln;
pub mod narrow;
pub mod onepole;
pub mod plate;
pub mod pow;
pub mod pow_f32;
pub mod ramp;
pub mod refusals;
pub mod section;
pub mod sin;
pub mod sin_f32;
pub mod sinh;
pub mod strip;
pub mod sweep;
pub mod tanh;
pub mod tape;
pub mod unary;
pub mod whole;
pub mod widen;

pub type Run = fn(&mut Rng, Budget) -> Report;

/// Each by its name, with the fewest cases that it has however short its time.
pub const ALL: &[(&str, u64, Run)] = &[
    ("sin", MILLION, sin::run),
    ("cos", MILLION, cos::run),
    ("exp", MILLION, exp::run),
    ("ln", MILLION, ln::run),
    ("pow", MILLION, pow::run),
    ("tanh", MILLION, tanh::run),
    ("sinh", MILLION, sinh::run),
    ("sin_f32", MILLION, sin_f32::run),
    ("pow_f32", MILLION, pow_f32::run),
    ("widen", MILLION, widen::run),
    ("narrow", MILLION, narrow::run),
    ("floor", MILLION, floor::run),
    ("whole", MILLION, whole::run),
    ("flush", MILLION, flush::run),
    ("section", MILLION, section::run),
    ("onepole", MILLION, onepole::run),
    ("delay", MILLION, delay::run),
    ("ramp", MILLION, ramp::run),
    ("sweep", MILLION, sweep::run),
    ("duck", LISTS, duck::run),
    ("attack", LISTS, attack::run),
    ("tape", LISTS, tape::run),
    ("plate", LISTS, plate::run),
    ("ceiling", LISTS, ceiling::run),
    ("strip", LISTS, strip::run),
    ("abuse", LISTS, abuse::run),
];

const LISTS: u64 = 20;
const MILLION: u64 = 1_000_000;
