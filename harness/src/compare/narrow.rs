//! Narrowing of every f64: Rust's `as f32`, to nearest, ties to even.

use crate::part::goqhari_test_narrow;
use crate::report::{Budget, Report};
use crate::rng::Rng;

/// The ends of f32's range: half its least, its least normal, and where the infinities begin.
pub const EDGES: [f64; 12] = [
    0.0,
    -0.0,
    1.0,
    f64::from_bits(1),
    7.006492321624085e-46,
    1.401298464324817e-45,
    1.1754943508222875e-38,
    3.4028234663852886e38,
    3.4028235677973366e38,
    f64::MAX,
    f64::INFINITY,
    f64::NAN,
];

/// Any pattern, any of f32's size, a tie of two f32 or near it, the subnormals' ties too.
pub fn draw(rng: &mut Rng) -> f64 {
    let v = match rng.below(4) {
        0 => rng.any_f64(),
        1 => rng.scaled(1e-46, 1e39),
        2 => {
            let low = rng.below(0x7f80_0000) as u32;
            let tie = (f64::from(f32::from_bits(low)) + f64::from(f32::from_bits(low + 1))) / 2.0;
            rng.near(tie)
        }
        _ => {
            let low = rng.below(1 << 23) as u32;
            let tie = (f64::from(f32::from_bits(low)) + f64::from(f32::from_bits(low + 1))) / 2.0;
            rng.near(tie)
        }
    };
    if rng.flag() { v } else { -v }
}

fn case(report: &mut Report, x: f64) {
    let input = || format!("{x:e} (bits {:016x})", x.to_bits());
    report.compare(x.abs().to_bits(), input, goqhari_test_narrow(x), x as f32);
}

pub fn run(rng: &mut Rng, budget: Budget) -> Report {
    let mut report = Report::default();
    for edge in EDGES {
        for by in 0..=8 {
            let x = f64::from_bits(edge.to_bits().wrapping_add(by).wrapping_sub(4));
            case(&mut report, x);
            case(&mut report, -x);
        }
    }
    while budget.goes_on(report.cases) {
        case(&mut report, draw(rng));
    }
    report
}
