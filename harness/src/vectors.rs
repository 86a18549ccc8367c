//! Prints the list that crates/replay runs: for each function its edges and then draws of a fixed seed, with the
//! oracle's answers. A line is the function's name, two arguments and the answer, patterns in hexadecimal.
#![allow(dead_code)]

mod compare;
mod library;
mod part;
mod report;
mod rng;
mod setup;
mod shrink;
mod signal;
mod strip;

use compare::{exp, floor, ln, narrow, pow, pow_f32, sin, sin_f32, tanh, widen};
use oracle::elementary::{self, Elementary32};
use rng::Rng;

/// Lines for each function.
const LINES: usize = 300;

fn line(name: &str, a: u64, b: u64, answer: u64) {
    println!("{name:6} {a:016x} {b:016x} {answer:016x}");
}

/// An f64's pattern, one for all NaNs.
fn pattern(x: f64) -> u64 {
    if x.is_nan() { 0x7ff8_0000_0000_0000 } else { x.to_bits() }
}

/// An f32's, one for all NaNs.
fn short_pattern(x: f32) -> u64 {
    u64::from(if x.is_nan() { 0x7fc0_0000 } else { x.to_bits() })
}

/// The edges and then draws, those that are inside.
fn list<T: Copy>(edges: &[T], inside: fn(T) -> bool, draw: fn(&mut Rng) -> T) -> Vec<T> {
    let mut rng = Rng::new(LINES as u64);
    let draws = std::iter::repeat_with(|| draw(&mut rng));
    edges.iter().copied().chain(draws).filter(|&x| inside(x)).take(LINES).collect()
}

fn unary(name: &str, edges: &[f64], inside: fn(f64) -> bool, draw: fn(&mut Rng) -> f64, of: fn(f64) -> f64) {
    for v in list(edges, inside, draw) {
        line(name, pattern(v), 0, pattern(of(v)));
    }
}

fn main() {
    unary("sin", &sin::EDGES, |_| true, sin::draw, elementary::sin);
    unary("cos", &sin::EDGES, |_| true, sin::draw, elementary::cos);
    unary("exp", &exp::EDGES, exp::inside, exp::draw, elementary::exp);
    unary("ln", &ln::EDGES, ln::inside, ln::draw, elementary::ln);
    for (b, p) in list(&pow::EDGES, pow::inside, pow::draw) {
        line("pow", pattern(b), pattern(p), pattern(elementary::pow(b, p)));
    }
    unary("tanh", &tanh::EDGES, |_| true, tanh::draw, elementary::tanh);
    unary("sinh", &exp::EDGES, exp::inside, exp::draw, elementary::sinh);
    for x in list(&sin_f32::EDGES, |_| true, sin_f32::draw) {
        line("sin32", short_pattern(x), 0, short_pattern(x.sin01()));
    }
    for (b, p) in list(&pow_f32::EDGES, pow_f32::inside, pow_f32::draw) {
        line("pow32", short_pattern(b), short_pattern(p), short_pattern(b.powf01(p)));
    }
    for x in list(&widen::EDGES, |_| true, |rng| rng.any_f32()) {
        line("widen", short_pattern(x), 0, pattern(f64::from(x)));
    }
    for x in list(&narrow::EDGES, |_| true, narrow::draw) {
        line("narrow", pattern(x), 0, short_pattern(x as f32));
    }
    unary("floor", &floor::EDGES, |_| true, floor::draw, f64::floor);
    for x in list(&floor::EDGES, |_| true, floor::draw) {
        line("whole", pattern(x), 0, x as u64);
    }
}
