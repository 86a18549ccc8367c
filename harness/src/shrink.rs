//! A difference's smallest input: plainer cases are tried for as long as they still differ.

use std::time::{Duration, Instant};

pub trait Shrink: Clone {
    /// Cases plainer than this one, the plainest first.
    fn smaller(&self) -> Vec<Self>;
}

/// How long one difference's smallest input is sought.
const SOUGHT: Duration = Duration::from_secs(5);

/// The plainest case found that still differs.
pub fn smallest<C: Shrink>(case: C, differs: impl Fn(&C) -> bool) -> C {
    let mut case = case;
    let end = Instant::now() + SOUGHT;
    while let Some(other) = case.smaller().into_iter().take_while(|_| Instant::now() < end).find(&differs) {
        case = other;
    }
    case
}

/// Shorter lists: nothing, each half, and all but the last.
pub fn halves<T: Clone>(list: &[T]) -> Vec<Vec<T>> {
    let n = list.len();
    match n {
        0 => Vec::new(),
        1 => vec![Vec::new()],
        _ => vec![Vec::new(), list[..n / 2].to_vec(), list[n / 2..].to_vec(), list[..n - 1].to_vec()],
    }
}

/// The list without each of its elements in turn, and its halves.
pub fn each_without<T: Clone>(list: &[T]) -> Vec<Vec<T>> {
    let mut out = halves(list);
    if list.len() <= 16 {
        for i in 0..list.len() {
            let mut rest = list.to_vec();
            rest.remove(i);
            out.push(rest);
        }
    }
    out
}

/// Plainer samples: shorter, or with some of them 0, more first, or one of few 1.
pub fn quieter(samples: &[f64]) -> Vec<Vec<f64>> {
    let mut out = halves(samples);
    let sounding: Vec<usize> = (0..samples.len()).filter(|&i| samples[i].to_bits() != 0).collect();
    let mut set = |places: &[usize], to: f64| {
        let mut s = samples.to_vec();
        for &i in places {
            s[i] = to;
        }
        out.push(s);
    };
    for parts in [1, 2, 4, 8, 16, 32] {
        if parts <= sounding.len() {
            for places in sounding.chunks(sounding.len().div_ceil(parts)) {
                set(places, 0.0);
            }
        }
    }
    if sounding.len() <= 8 {
        for &i in sounding.iter().filter(|&&i| samples[i] != 1.0) {
            set(&[i], 1.0);
        }
    }
    out
}
