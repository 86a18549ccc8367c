//! The duck's attack (02, E2): each entry of its table, and kicks in their attack within lists of calls, to the lane and to the library.

use std::collections::BTreeSet;

use oracle::stream::gain_of_db;
use oracle::synth::{SIDECHAIN_ATTACK_S, SIDECHAIN_DB, SIDECHAIN_RELEASE_S, samples_at, sidechain_gain};

use super::lists::{self, List, Met};
use super::{strip, tape};
use crate::part::{Call, goqhari_test_sidechain};
use crate::report::{Budget, Report};
use crate::rng::Rng;
use crate::setup::{RATE, Setup, control};
use crate::shrink::Shrink;
use crate::signal::Signal;

/// "a table of 441 gains", and the samples that a kick ducks for.
const ENTRIES: u64 = 441;
const DUCKS: u64 = 8_820;

/// What a maker links, from the repository's root, where the harness is run.
const LIBRARY: &str = "build/libgoqhari.a";

/// A list of runs and latches, as the lane takes it.
#[derive(Clone, Debug)]
struct Case(tape::Case);

impl Case {
    /// The same list as the library takes it.
    fn strip(&self) -> strip::Case {
        let mut left = &self.0.samples[..];
        let calls = self.0.calls.iter().map(|&call| match call {
            Call::Run(len, drums) => {
                let samples = left.split_off(..left.len().min(len as usize)).unwrap_or_default();
                strip::Call::Run { samples: Signal(samples.to_vec()), drums, wrong: 0 }
            }
            Call::Latch(to, over) => strip::Call::Latch { to, over, wrong: 0 },
        });
        strip::Case { setup: self.0.setup.clone(), beyond: 0, calls: calls.collect() }
    }

    /// What of the attacks the list meets: of each sample, how long it is since each marked kick that ducks.
    fn note(&self, met: &mut Met) {
        let mut entries: BTreeSet<u64> = BTreeSet::new();
        let mut marked: Vec<u64> = Vec::new();
        let mut n = 0;
        for &call in &self.0.calls {
            let Call::Run(len, drums) = call else { continue };
            let end = (n + len).min(self.0.samples.len() as u64);
            let alone = end - n == 1;
            while n < end {
                if drums {
                    marked.extend(self.0.setup.kicks.iter().filter(|&&kick| kick == n));
                }
                let since: Vec<u64> = marked.iter().map(|kick| n - kick).filter(|&since| since < DUCKS).collect();
                let attacks = since.iter().filter(|&&since| since < ENTRIES).count();
                entries.extend(since.iter().filter(|&&since| since < ENTRIES));
                met.note("an attack in a run of one sample", alone && attacks > 0);
                met.note("an attack in a longer run", !alone && attacks > 0);
                met.note("two attacks at once", attacks > 1);
                met.note("an attack beside two releases in a run of one sample", alone && attacks > 0 && since.len() > attacks + 1);
                met.note("an attack beside a release in a longer run", !alone && attacks > 0 && since.len() > attacks);
                met.note("an attack's last sample", since.contains(&(ENTRIES - 1)));
                met.note("a release's first sample", since.contains(&ENTRIES));
                n += 1;
            }
        }
        met.note("every entry", entries.len() as u64 == ENTRIES);
    }
}

impl List for Case {
    const MATTERS: &[&str] = &[
        "every entry",
        "an attack in a run of one sample",
        "an attack in a longer run",
        "two attacks at once",
        "an attack beside two releases in a run of one sample",
        "an attack beside a release in a longer run",
        "an attack's last sample",
        "a release's first sample",
    ];

    /// Noise, which shows a gain's last digit, under kicks that stand close together.
    fn drawn(rng: &mut Rng) -> Self {
        let len = rng.scaled(1.0, 4.0 * ENTRIES as f64) as usize;
        let many = rng.pick(&[1, 1, 2, 3, 8, 64, 1024]);
        let mut kicks: Vec<u64> = (0..many).map(|_| if rng.once_in(8) { 0 } else { rng.below(len as u64) }).collect();
        kicks.sort_unstable();
        let setup = Setup { ducked: true, gains: [1.0; 2], kicks, ..Setup::drawn(rng, len as u64) };
        let samples = Signal((0..len).map(|_| rng.between(-1.5, 1.5)).collect());
        let alone = rng.flag();
        let mut calls = Vec::new();
        let mut left = len as u64;
        while left > 0 {
            if rng.once_in(32) {
                calls.push(Call::Latch([control(rng), control(rng)], [tape::length(rng), tape::length(rng)]));
            }
            let size = if alone { 1 } else { (rng.scaled(1.0, 600.0) as u64).min(left) };
            calls.push(Call::Run(size, !rng.once_in(8)));
            left -= size;
        }
        Self(tape::Case { setup, samples, calls })
    }

    fn samples(&self) -> u64 {
        self.0.samples()
    }

    fn difference(&self, met: &mut Met) -> Option<String> {
        self.note(met);
        self.0.difference(met).or_else(|| self.strip().difference(met))
    }
}

impl Shrink for Case {
    fn smaller(&self) -> Vec<Self> {
        self.0.smaller().into_iter().map(Case).collect()
    }
}

pub fn run(rng: &mut Rng, budget: Budget) -> Report {
    let mut report = lists::run::<Case>(rng, budget);
    let [attack, release] = [SIDECHAIN_ATTACK_S, SIDECHAIN_RELEASE_S].map(|s| samples_at(s, RATE));
    let floor = gain_of_db(f64::from(SIDECHAIN_DB));
    report.compare(0, || "the samples of an attack".into(), ENTRIES, attack as u64);
    let entry = |j: u64| 1.0 - ((1.0 - floor) * j as f64) / 441.0;
    for j in 0..ENTRIES {
        let ours = goqhari_test_sidechain(j);
        report.compare(j, || format!("entry {j}"), ours, sidechain_gain(j as usize, floor, attack, release));
        report.compare(j, || format!("entry {j} by 02's formula"), ours, entry(j));
    }
    // No contract says that a gain is read and not divided for, nor what the compiler makes of the table.
    let table: Vec<u8> = (0..ENTRIES).flat_map(|j| entry(j).to_le_bytes()).collect();
    let library = std::fs::read(LIBRARY).unwrap_or_default();
    let held = library.windows(table.len()).filter(|bytes| *bytes == table).count() as u64;
    report.compare(0, || format!("arrays of the 441 gains in {LIBRARY}"), held, 1);
    report
}
