//! demo WAV SVG: a short phrase with kicks and weather, made here, through a strip of the default setup. Writes what was
//! heard and a picture of it, and prints what a person wants to know.

mod common;

use std::env;
use std::error::Error;
use std::f64::consts::TAU;
use std::fs;
use std::time::Instant;

use common::svg::{Axis, COLOURS, Picture};
use common::{Heard, db, wav};
use goqhari::{LATENCY, Latch, RATE, STORE_COUNTS, STORE_NUMBERS, Setup, Strip, gain};

const SECOND: f64 = RATE as f64;
/// A beat at 80 a minute.
const BEAT: f64 = 0.75 * SECOND;
const BEATS: usize = 16;
/// Four bars: D minor 9, G 13, C major 9, A minor 9, as notes of the piano.
const CHORDS: [[u8; 4]; 4] = [[50, 60, 64, 65], [43, 59, 64, 65], [48, 59, 62, 64], [45, 60, 64, 71]];
/// A note over each beat; 0 is none.
const TUNE: [u8; BEATS] = [69, 0, 72, 76, 74, 71, 0, 69, 67, 0, 71, 74, 72, 0, 64, 0];

fn frequency(note: u8) -> f64 {
    440.0 * ((f64::from(note) - 69.0) / 12.0).exp2()
}

/// A plucked note: two partials and a bell above, each dying away in its own time.
fn pluck(since: f64, hz: f64) -> f64 {
    let t = since / SECOND;
    let partial = |times: f64, level: f64, lasts: f64| level * (TAU * hz * times * t).sin() * (-t / lasts).exp();
    (t / 0.004).min(1.0) * (partial(1.0, 1.0, 0.9) + partial(2.0, 0.35, 0.5) + partial(7.0, 0.12, 0.08))
}

/// A kick: a sine that falls from 150 Hz to 45 Hz.
fn kick(since: f64) -> f64 {
    let t = since / SECOND;
    let turns = 45.0 * t + 105.0 * 0.03 * (1.0 - (-t / 0.03).exp());
    (TAU * turns).sin() * (-t / 0.12).exp()
}

/// The phrase, and where its kicks are: on the first and third beat of a bar, and before the fourth bar.
fn phrase() -> (Vec<f64>, Vec<u64>) {
    let mut samples = vec![0.0; (BEATS as f64 * BEAT) as usize];
    let mut add = |from: f64, level: f64, sound: &dyn Fn(f64) -> f64| {
        for (i, sample) in samples.iter_mut().enumerate().skip(from as usize) {
            *sample += level * sound(i as f64 - from.floor());
        }
    };
    let mut kicks: Vec<u64> = (0..BEATS).step_by(2).map(|beat| (beat as f64 * BEAT) as u64).collect();
    kicks.push((11.5 * BEAT) as u64);
    kicks.sort();
    for (bar, chord) in CHORDS.iter().enumerate() {
        for (string, &note) in chord.iter().enumerate() {
            // strummed a little, as a hand would
            let at = bar as f64 * 4.0 * BEAT + string as f64 * 0.018 * SECOND;
            add(at, 0.09, &|since| pluck(since, frequency(note)));
        }
    }
    for (beat, &note) in TUNE.iter().enumerate().filter(|&(_, &note)| note != 0) {
        add(beat as f64 * BEAT, 0.13, &|since| pluck(since, frequency(note)));
    }
    for &at in &kicks {
        add(at as f64, 0.6, &kick);
    }
    (samples, kicks)
}

/// What the weather does, by beats: night falls, it rains, and both pass.
const WEATHER: [(usize, f32, f32); 4] = [(2, 0.0, 0.0), (6, 0.0, 1.0), (10, 1.0, 1.0), (12, 1.0, 0.0)];

fn main() -> Result<(), Box<dyn Error>> {
    let words: Vec<String> = env::args().collect();
    let [_, sound, picture] = &words[..] else { return Err("use: demo WAV SVG".into()) };
    let (samples, kicks) = phrase();
    let setup = Setup { kicks: &kicks, ..Setup::default() };
    let (mut store, mut counts) = (vec![0.0; STORE_NUMBERS], vec![0; STORE_COUNTS]);
    let mut strip = Strip::open(&setup, &mut store, &mut counts)?;
    let mut heard = Heard::default();
    let mut calls = 0;
    let start = Instant::now();
    for (beat, samples) in samples.chunks(BEAT as usize).enumerate() {
        for &(_, daylight, rain) in WEATHER.iter().filter(|&&(at, ..)| at == beat) {
            let over = (2.0 * BEAT) as u64;
            strip.latch(Latch { daylight, grading: over, rain, darkening: over })?;
        }
        // buffers of many sizes: the frames are the same as of any other
        let mut rest = samples;
        while !rest.is_empty() {
            let (buffer, after) = rest.split_at(rest.len().min(1 + calls * 37 % 1024));
            heard.run(&mut strip, buffer, true)?;
            (rest, calls) = (after, calls + 1);
        }
    }
    let rested = heard.ring_out(&mut strip)?;
    let took = start.elapsed().as_secs_f64();

    let seconds = heard.gains.len() as f64 / SECOND;
    let loudest = |values: &mut dyn Iterator<Item = f64>| values.fold(0.0, |most: f64, x| most.max(x.abs()));
    let least = heard.gains.iter().copied().min().map_or(1.0, gain);
    let peak = loudest(&mut heard.frames.as_flattened().iter().map(|&x| x.into()));
    println!(
        "in       {:6.2} s, {} kicks, peak {:.3}",
        samples.len() as f64 / SECOND,
        kicks.len(),
        loudest(&mut samples.iter().copied())
    );
    println!("out      {seconds:6.2} s, peak {peak:.4} ({:.2} dB)", db(peak));
    println!(
        "ceiling  least gain {least:.4} ({:.2} dB), {LATENCY} samples ({:.1} ms) late",
        db(least),
        LATENCY as f64 / SECOND * 1e3
    );
    println!(
        "rests    at {:.2} s, {:.2} s after the phrase",
        rested as f64 / SECOND,
        (rested - samples.len()) as f64 / SECOND
    );
    println!(
        "time     {took:.3} s in {calls} calls for the phrase and its tail: {:.0} times real time",
        seconds / took
    );
    fs::write(sound, wav::write(wav::Format::Whole, heard.in_time())?)?;
    fs::write(picture, drawn(&samples, &kicks, &heard, rested))?;
    println!("wrote    {sound} and {picture}");
    Ok(())
}

/// Input, output and gain over the time until it rests, with the kicks and the weather.
fn drawn(samples: &[f64], kicks: &[u64], heard: &Heard, rested: usize) -> String {
    let end = heard.gains.len() as f64 / SECOND;
    let time = || Axis::even(0.0..end, 1.0, "s");
    let mut picture = Picture::new(1000.0, 640.0, "A phrase through the default setup");
    let rests = rested as f64 / SECOND;

    let mut input = picture.panel(48.0..150.0, time(), Axis::even(-1.0..1.0, 0.5, "input"));
    input.key(0, COLOURS[4], "kicks");
    kicks.iter().for_each(|&kick| input.mark(kick as f64 / SECOND, COLOURS[4]));
    input.envelope(samples, 1.0 / SECOND, COLOURS[0]);

    for (i, name) in ["output, left", "output, right"].into_iter().enumerate() {
        let from = 205.0 + 125.0 * i as f64;
        let mut output = picture.panel(from..from + 78.0, time(), Axis::even(-1.0..1.0, 0.5, name));
        let side: Vec<f64> = heard.frames.iter().map(|frame| frame[i].into()).collect();
        output.envelope(&side, 1.0 / SECOND, COLOURS[2]);
        output.key(0, COLOURS[1], "rests");
        output.mark(rests, COLOURS[1]);
    }

    let mut gains = picture.panel(455.0..520.0, time(), Axis::even(0.5..1.0, 0.1, "the ceiling's gain"));
    let counts: Vec<f64> = heard.gains.iter().map(|&count| gain(count)).collect();
    gains.envelope(&counts, 1.0 / SECOND, COLOURS[3]);

    let mut weather = picture.panel(572.0..608.0, time(), Axis::even(0.0..1.0, 1.0, "weather"));
    let [mut daylight, mut rain] = [vec![(0.0, 1.0)], vec![(0.0, 0.0)]];
    for (beat, light, wet) in WEATHER {
        let [from, to] = [beat, beat + 2].map(|beat| beat as f64 * BEAT / SECOND);
        for (curve, target) in [(&mut daylight, light), (&mut rain, wet)] {
            let held = curve[curve.len() - 1].1;
            curve.extend([(from, held), (to, target.into())]);
        }
    }
    for (i, (name, mut curve)) in [("daylight", daylight), ("rain", rain)].into_iter().enumerate() {
        curve.push((end, curve[curve.len() - 1].1));
        weather.key(i, COLOURS[4 * (1 - i)], name);
        weather.curve(&curve, COLOURS[4 * (1 - i)]);
    }
    picture.finish()
}
