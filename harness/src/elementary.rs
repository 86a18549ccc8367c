//! The elementary functions of document 01, written from its text. Every operation is f64, rounded singly, in the
//! order written. They stand in for the library's in the oracle, by the names of `Elementary`.

use std::f64::consts::{LN_2, TAU};

/// k = floor(v/TAU + 0.5), r = v − k·TAU.
fn turned(v: f64) -> f64 {
    let k = (v / TAU + 0.5).floor();
    v - k * TAU
}

/// SIN(v), 0 ≤ v < 2^40.
pub fn sin(v: f64) -> f64 {
    let r = turned(v);
    let z = r * r;
    let mut s = 1.0;
    for j in (1..=13).rev() {
        s = 1.0 - (z / f64::from(2 * j * (2 * j + 1))) * s;
    }
    r * s
}

/// COS: same r.
pub fn cos(v: f64) -> f64 {
    let r = turned(v);
    let z = r * r;
    let mut c = 1.0;
    for j in (1..=14).rev() {
        c = 1.0 - (z / f64::from((2 * j - 1) * (2 * j))) * c;
    }
    c
}

/// EXP(v), size at most 64.
pub fn exp(v: f64) -> f64 {
    let k = (v / LN_2 + 0.5).floor();
    let r = v - k * LN_2;
    let mut e = 1.0;
    for j in (1..=20).rev() {
        e = 1.0 + (r / f64::from(j)) * e;
    }
    e * f64::from_bits(((1023 + k as i64) as u64) << 52)
}

/// LN(m·2^k), 1 ≤ m < 2, of a normal number above 0.
pub fn ln(x: f64) -> f64 {
    let bits = x.to_bits();
    let k = (bits >> 52) as i32 - 1023;
    let m = f64::from_bits((bits & ((1 << 52) - 1)) | (1023 << 52));
    let y = (m - 1.0) / (m + 1.0);
    let z = y * y;
    let mut s = 1.0 / 41.0;
    for j in (1..=39).rev().step_by(2) {
        s = 1.0 / f64::from(j) + z * s;
    }
    (2.0 * y) * s + f64::from(k) * LN_2
}

/// POW(b, p) = EXP(p·LN(b)).
pub fn pow(b: f64, p: f64) -> f64 {
    exp(p * ln(b))
}

/// TANH(v): 1 if v ≥ 20, −1 if v ≤ −20.
pub fn tanh(v: f64) -> f64 {
    if v >= 20.0 {
        return 1.0;
    }
    if v <= -20.0 {
        return -1.0;
    }
    let z = v * v;
    let mut t = 81.0;
    for j in (1..=79).rev().step_by(2) {
        t = f64::from(j) + z / t;
    }
    v / t
}

/// sinh(v) = (EXP(v) − EXP(−v))/2.
pub fn sinh(v: f64) -> f64 {
    (exp(v) - exp(-v)) / 2.0
}

/// The library's methods on f64 under names of the oracle's, with 01's functions behind them.
pub trait Elementary64: Sized {
    fn sin01(self) -> f64;
    fn cos01(self) -> f64;
    fn sin_cos01(self) -> (f64, f64);
    fn exp01(self) -> f64;
    fn powf01(self, p: f64) -> f64;
    fn tanh01(self) -> f64;
    fn sinh01(self) -> f64;
    fn sqrt01(self) -> f64;
    fn log2_01(self) -> f64;
    fn midpoint01(a: f64, b: f64) -> f64;
}

impl Elementary64 for f64 {
    fn sin01(self) -> f64 {
        sin(self)
    }
    fn cos01(self) -> f64 {
        cos(self)
    }
    fn sin_cos01(self) -> (f64, f64) {
        (sin(self), cos(self))
    }
    fn exp01(self) -> f64 {
        exp(self)
    }
    fn powf01(self, p: f64) -> f64 {
        pow(self, p)
    }
    fn tanh01(self) -> f64 {
        tanh(self)
    }
    fn sinh01(self) -> f64 {
        sinh(self)
    }
    /// sqrt(7200) is the nearest f64; IEEE 754 has every root so.
    fn sqrt01(self) -> f64 {
        assert!(self == 7200.0, "01 gives sqrt(7200) alone");
        self.sqrt()
    }
    /// log2(2) = 1.
    fn log2_01(self) -> f64 {
        assert!(self == 2.0, "01 gives log2(2) alone");
        1.0
    }
    /// midpoint(1, c) = (1 + c)/2.
    fn midpoint01(a: f64, b: f64) -> f64 {
        assert!(a == 1.0, "01 gives midpoint(1, c) alone");
        (a + b) / 2.0
    }
}

/// An f32 function widens, works, and narrows to nearest, ties to even.
pub trait Elementary32: Sized {
    fn sin01(self) -> f32;
    fn powf01(self, p: f32) -> f32;
}

impl Elementary32 for f32 {
    fn sin01(self) -> f32 {
        sin(f64::from(self)) as f32
    }
    fn powf01(self, p: f32) -> f32 {
        pow(f64::from(self), f64::from(p)) as f32
    }
}
