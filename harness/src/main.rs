//! Compares the part with the oracle: harness SEED SECONDS [NAME..].
#![allow(dead_code)]

use std::time::{Duration, Instant};

mod compare;
mod library;
mod part;
mod report;
mod rng;
mod setup;
mod shrink;
mod signal;
mod strip;

use report::Budget;
use rng::Rng;

fn main() {
    let none: f64 = std::iter::empty::<f64>().sum();
    if none.to_bits() != (-0.0f64).to_bits() {
        println!("harness: this Rust's sum of floats does not begin at -0, which 01 asks of it");
        std::process::exit(2);
    }
    let words: Vec<String> = std::env::args().skip(1).collect();
    let (Some(seed), Some(seconds)) = (number(words.first()), number(words.get(1))) else {
        println!("usage: harness/compare SEED SECONDS [NAME..]");
        std::process::exit(2);
    };
    let names = &words[2..];
    if let Some(other) = names.iter().find(|name| compare::ALL.iter().all(|c| c.0 != name.as_str())) {
        println!("harness: no comparison is named {other}");
        std::process::exit(2);
    }
    let chosen: Vec<_> =
        compare::ALL.iter().filter(|c| names.is_empty() || names.iter().any(|name| name == c.0)).collect();
    let start = Instant::now();
    let mut failed = false;
    for (i, &&(name, least, run)) in chosen.iter().enumerate() {
        let end = start + Duration::from_secs(seconds) * (i as u32 + 1) / chosen.len() as u32;
        let report = run(&mut Rng::new(seed ^ named(name)), Budget::new(end, least));
        report.print(name);
        if report.cases < least {
            println!("{name} has compared too little: {} cases, and at least {least} are asked", report.cases);
            failed = true;
        }
        failed |= report.differences > 0;
    }
    std::process::exit(i32::from(failed));
}

fn number(word: Option<&String>) -> Option<u64> {
    word.and_then(|word| word.parse().ok())
}

/// A number of the name's own, so that each comparison's draws depend on the seed and its name alone (FNV-1a).
fn named(name: &str) -> u64 {
    name.bytes().fold(0xcbf2_9ce4_8422_2325, |h, b| (h ^ u64::from(b)).wrapping_mul(0x100_0000_01b3))
}
