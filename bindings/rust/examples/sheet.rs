//! sheet FOLDER: measures the part and writes the data sheet's pictures, FOLDER/sheet/*.svg, and its figures into
//! FOLDER/DATASHEET.md, between the two lines that name this program.

mod common;

use std::env;
use std::error::Error;
use std::f64::consts::TAU;
use std::fmt::Write as _;
use std::fs;

use common::svg::{Axis, COLOURS, Picture};
use common::{Heard, db};
use goqhari::{
    CEILING, GAIN_UNIT, LATENCY, Latch, RATE, Refusal, STORE_COUNTS, STORE_NUMBERS, Setup, Strip, Tone, gain,
};

const SECOND: f64 = RATE as f64;
/// The setup that is measured: one tone as good as linear, and nothing that moves but the tape's wow and flutter.
const PLAIN: Setup<'_> = Setup {
    tone: Tone::Fixed { corner: 20_000.0, drive: 0.1 },
    pad: None,
    darkened: false,
    gain_in: 1.0,
    gain_out: 1.0,
    ducked: false,
    daylight: 1.0,
    rain: 0.0,
    send: 0.0,
    positions: &[],
    values: &[],
    kicks: &[],
};

/// Samples through a fresh strip; then, if it is to ring out, silence until it rests, and where it does.
fn played(setup: &Setup<'_>, samples: &[f64], to_rest: bool) -> Result<(Heard, usize), Refusal> {
    let (mut store, mut counts) = (vec![0.0; STORE_NUMBERS], vec![0; STORE_COUNTS]);
    let mut strip = Strip::open(setup, &mut store, &mut counts)?;
    let mut heard = Heard::default();
    heard.run(&mut strip, samples, true)?;
    let rested = if to_rest { heard.ring_out(&mut strip)? } else { samples.len() };
    Ok((heard, rested))
}

// ---- the lane's response

/// The gain at a frequency, a whole multiple of 2 Hz: the root mean square of half a second, after a quarter to settle.
fn response(setup: &Setup<'_>, hz: f64) -> Result<f64, Refusal> {
    let [settling, measured] = [0.25, 0.5].map(|seconds| (seconds * SECOND) as usize);
    let level = 0.01;
    let sine: Vec<f64> = (0..settling + measured).map(|i| level * (TAU * hz * i as f64 / SECOND).sin()).collect();
    let (heard, _) = played(setup, &sine, false)?;
    let square = |frame: &[f32; 2]| f64::from(frame[0]).powi(2);
    let mean = heard.frames[settling..].iter().map(square).sum::<f64>() / measured as f64;
    Ok(db((2.0 * mean).sqrt() / level))
}

/// Frequencies from 20 Hz to 20,000 Hz, twenty to a tenfold.
fn frequencies() -> Vec<f64> {
    let mut all: Vec<f64> = (0..=60).map(|i| (10.0 * 10f64.powf(f64::from(i) / 20.0)).round() * 2.0).collect();
    all.dedup();
    all
}

/// The frequencies of the table.
const TABLE: [f64; 9] = [50.0, 100.0, 200.0, 500.0, 1_000.0, 2_000.0, 5_000.0, 10_000.0, 16_000.0];

/// A panel of curves, one for each setup, and a row of the table for each.
fn responses(
    picture: &mut Picture,
    from: f64,
    name: &str,
    setups: &[(String, Setup<'_>)],
    table: &mut String,
) -> Result<(), Refusal> {
    let levels = Axis::even(-60.0..10.0, 10.0, name);
    let mut panel = picture.panel(from..from + 210.0, Axis::frequencies(20.0..20_000.0), levels);
    for (i, (name, setup)) in setups.iter().enumerate() {
        let curve: Result<Vec<_>, Refusal> = frequencies().iter().map(|&hz| Ok((hz, response(setup, hz)?))).collect();
        panel.key(i, COLOURS[i], name);
        panel.curve(&curve?.into_iter().take_while(|&(_, level)| level > -60.0).collect::<Vec<_>>(), COLOURS[i]);
        let _ = write!(table, "| {name} |");
        for hz in TABLE {
            let level = (response(setup, hz)? * 10.0).round() / 10.0 + 0.0;
            let _ = if level < -100.0 { write!(table, " below -100 |") } else { write!(table, " {level:.1} |") };
        }
        table.push('\n');
    }
    Ok(())
}

fn lane(table: &mut String) -> Result<String, Refusal> {
    let mut picture = Picture::new(1000.0, 560.0, "The lane's response: root mean square out over in, dB");
    let corners = [50.0, 200.0, 800.0, 3_200.0, 12_800.0, 20_000.0].map(|corner| {
        let tone = Tone::Fixed { corner, drive: 0.1 };
        (format!("corner {corner} Hz"), Setup { tone, ..PLAIN })
    });
    let rains =
        [0.0, 0.25, 0.5, 0.75, 1.0].map(|rain| (format!("rain {rain}"), Setup { rain, darkened: true, ..PLAIN }));
    *table += "Level in dB by frequency in Hz:\n\n| |";
    TABLE.iter().for_each(|hz| *table += &format!(" {hz} |"));
    *table += "\n|---|";
    TABLE.iter().for_each(|_| *table += "---|");
    table.push('\n');
    responses(&mut picture, 48.0, "dB, by corner", &corners, table)?;
    responses(&mut picture, 310.0, "dB, by rain", &rains, table)?;
    Ok(picture.finish())
}

// ---- the plate

/// The slope and the height at 0 of the line that is nearest to the points.
fn fitted(points: &[(f64, f64)]) -> (f64, f64) {
    let n = points.len() as f64;
    let sum = |of: &dyn Fn(f64, f64) -> f64| points.iter().map(|&(x, y)| of(x, y)).sum::<f64>();
    let [x, y, xx, xy] = [sum(&|x, _| x), sum(&|_, y| y), sum(&|x, _| x * x), sum(&|x, y| x * y)];
    let slope = (n * xy - x * y) / (n * xx - x * x);
    (slope, (y - slope * x) / n)
}

fn plate(figures: &mut String) -> Result<String, Refusal> {
    let mut impulse = vec![0.0; 4 * RATE as usize];
    impulse[0] = 0.5;
    let (wet, rested) = played(&Setup { send: 1.0, ..PLAIN }, &impulse, true)?;
    let (dry, _) = played(&PLAIN, &impulse, false)?;
    assert!(wet.gains.iter().all(|&count| count == GAIN_UNIT), "the ceiling was to leave the impulse alone");
    let side = |i: usize| -> Vec<f64> {
        wet.in_time().iter().zip(dry.in_time()).map(|(wet, dry)| f64::from(wet[i]) - f64::from(dry[i])).collect()
    };
    let sides = [side(0), side(1)];
    let squares: Vec<f64> = sides[0].iter().zip(&sides[1]).map(|(l, r)| l * l + r * r).collect();
    let energy = |squares: &[f64]| squares.iter().sum::<f64>();
    let all = energy(&squares);
    // Schroeder's curve: what is still to come at each moment
    let mut left = all;
    let decay: Vec<(f64, f64)> = squares
        .iter()
        .enumerate()
        .map(|(i, square)| {
            let level = 10.0 * (left / all).max(1e-30).log10();
            left -= square;
            (i as f64 / SECOND, level)
        })
        .collect();
    let fit: Vec<_> = decay.iter().copied().filter(|&(_, level)| (-35.0..=-5.0).contains(&level)).collect();
    let (slope, height) = fitted(&fit);
    let most = squares.iter().copied().fold(0.0, f64::max);
    let first = squares.iter().position(|&square| square > 1e-6 * most).unwrap_or(0) as f64 / SECOND;
    let through: Vec<f64> = dry.frames.iter().map(|frame| 2.0 * f64::from(frame[0]).powi(2)).collect();
    let _ =
        writeln!(figures, "- its first sound comes {:.1} ms after the impulse, the look-ahead taken off", first * 1e3);
    let _ =
        writeln!(figures, "- decay: T60 {:.2} s, by the line through -5 to -35 dB of Schroeder's curve", -60.0 / slope);
    let _ = writeln!(
        figures,
        "- energy of the return at send 1: {:.1} dB beside the lane's own",
        10.0 * (all / energy(&through)).log10()
    );
    let _ = writeln!(figures, "- at rest {:.1} s after an impulse of 0.5", rested as f64 / SECOND);

    let mut picture = Picture::new(1000.0, 520.0, "The plate's answer to an impulse through the lane, send 1");
    let scale = most.sqrt();
    for (i, name) in ["left, over the largest", "right, over the largest"].into_iter().enumerate() {
        let from = 48.0 + 135.0 * i as f64;
        let mut panel =
            picture.panel(from..from + 90.0, Axis::even(0.0..2.0, 0.2, "s"), Axis::even(-1.0..1.0, 0.5, name));
        let values: Vec<f64> = sides[i].iter().map(|value| value / scale).collect();
        panel.envelope(&values, 1.0 / SECOND, COLOURS[0]);
    }
    let mut panel =
        picture.panel(325.0..480.0, Axis::even(0.0..2.0, 0.2, "s"), Axis::even(-80.0..0.0, 20.0, "still to come, dB"));
    panel.curve(&decay.iter().copied().take(2 * RATE as usize).step_by(200).collect::<Vec<_>>(), COLOURS[0]);
    panel.key(1, COLOURS[1], &format!("fit: 60 dB in {:.2} s", -60.0 / slope));
    panel.curve(&[(-height / slope, 0.0), (2.0, 2.0 * slope + height)], COLOURS[1]);
    Ok(picture.finish())
}

// ---- the ceiling

fn ceiling(figures: &mut String) -> Result<String, Refusal> {
    let [start, end] = [0.1, 0.15].map(|seconds| (seconds * SECOND) as usize);
    let burst: Vec<f64> = (0..(0.6 * SECOND) as usize)
        .map(|i| (TAU * 1_000.0 * i as f64 / SECOND).sin() * if (start..end).contains(&i) { 4.0 } else { 0.1 })
        .collect();
    let (heard, _) = played(&PLAIN, &burst, false)?;
    let output: Vec<f64> = heard.frames.iter().map(|frame| frame[0].into()).collect();
    let gains: Vec<(f64, f64)> =
        heard.gains.iter().enumerate().map(|(i, &count)| (i as f64 / SECOND, db(gain(count)))).collect();
    let peak = output.iter().fold(0.0, |most: f64, x| most.max(x.abs()));
    let least = gains.iter().map(|&(_, level)| level).fold(0.0, f64::min);
    let lowered = |from: usize| gains[from..].iter().position(|&(_, level)| level < -0.01).unwrap_or(0) + from;
    let back = gains[end..].iter().position(|&(_, level)| level > -0.01).unwrap_or(0);
    let begins = lowered(0) as f64 - start as f64;
    let _ = writeln!(figures, "- largest side delivered {peak:.6} ({:.3} dBFS), least gain {least:.2} dB", db(peak));
    let _ = writeln!(
        figures,
        "- the gain begins to fall {:.1} ms after the burst comes in, {:.1} ms before it is delivered",
        begins / SECOND * 1e3,
        (LATENCY as f64 - begins) / SECOND * 1e3
    );
    let _ = writeln!(figures, "- it is back at 0 dB {:.0} ms after the burst's end", back as f64 / SECOND * 1e3);

    let time = || Axis::even(0.05..0.5, 0.05, "s");
    let mut picture = Picture::new(1000.0, 470.0, "A burst of 1 kHz, 50 ms at 4, under the ceiling");
    let mut panel = picture.panel(48.0..150.0, time(), Axis::even(-4.0..4.0, 2.0, "into the strip"));
    panel.envelope(&burst, 1.0 / SECOND, COLOURS[0]);
    let mut panel = picture.panel(205.0..305.0, time(), Axis::even(-1.0..1.0, 0.5, "delivered"));
    panel.envelope(&output, 1.0 / SECOND, COLOURS[2]);
    panel.key(0, COLOURS[1], "limit");
    [-1.0, 1.0]
        .map(|sign| sign * f64::from(CEILING))
        .into_iter()
        .for_each(|limit| panel.curve(&[(0.05, limit), (0.5, limit)], COLOURS[1]));
    let mut panel = picture.panel(360.0..430.0, time(), Axis::even(-20.0..0.0, 5.0, "gain, dB"));
    panel.curve(&gains.iter().copied().step_by(40).collect::<Vec<_>>(), COLOURS[3]);
    Ok(picture.finish())
}

// ---- flipped latches

/// When a side is first not finite under noise of size 1, daylight being latched at once from one end to the other, every so many samples.
fn first_not_finite(corners: [f32; 2], every: usize, seconds: usize) -> Result<Option<f64>, Refusal> {
    let setup = Setup { tone: Tone::Graded { corners, drives: [1.6; 2] }, ..PLAIN };
    let (mut store, mut counts) = (vec![0.0; STORE_NUMBERS], vec![0; STORE_COUNTS]);
    let mut strip = Strip::open(&setup, &mut store, &mut counts)?;
    let mut heard = Heard::default();
    let mut state = 0u64;
    for flip in 0..seconds * RATE as usize / every {
        let noise: Vec<f64> = (0..every)
            .map(|_| {
                state = state.wrapping_mul(6_364_136_223_846_793_005).wrapping_add(1_442_695_040_888_963_407);
                (state >> 40) as f64 / 8_388_608.0 - 1.0
            })
            .collect();
        heard.run(&mut strip, &noise, true)?;
        strip.latch(Latch { daylight: (flip % 2) as f32, grading: 0, rain: 0.0, darkening: 0 })?;
    }
    let first = heard.frames.iter().position(|frame| frame.iter().any(|side| !side.is_finite()));
    Ok(first.map(|at| at as f64 / SECOND))
}

fn flips(table: &mut String) -> Result<(), Refusal> {
    let (seconds, lengths) = (5, [8, 16, 32, 64, 128]);
    *table += "| corners, flipped every |";
    lengths.iter().for_each(|every| *table += &format!(" {every} samples |"));
    *table += "\n|---|---|---|---|---|---|\n";
    for corners in [[20.0, 20_000.0], [200.0, 20_000.0], [20.0, 2_000.0], [2_000.0, 8_000.0]] {
        let _ = write!(table, "| {} and {} Hz |", corners[0], corners[1]);
        for every in lengths {
            let _ = match first_not_finite(corners, every, seconds)? {
                Some(at) => write!(table, " {at:.2} s |"),
                None => write!(table, " none in {seconds} s |"),
            };
        }
        table.push('\n');
    }
    Ok(())
}

// ---- the sheet

const BEGIN: &str = "<!-- measured by make sheet -->\n";
const END: &str = "<!-- to here -->\n";

fn main() -> Result<(), Box<dyn Error>> {
    let words: Vec<String> = env::args().collect();
    let [_, folder] = &words[..] else { return Err("use: sheet FOLDER".into()) };
    let path = format!("{folder}/DATASHEET.md");
    let text = fs::read_to_string(&path)?;
    let (before, rest) = text.split_once(BEGIN).ok_or("the data sheet has no place for the figures")?;
    let (_, after) = rest.split_once(END).ok_or("the figures' place in the data sheet has no end")?;
    fs::create_dir_all(format!("{folder}/sheet"))?;
    let mut figures = String::new();
    type Measure = fn(&mut String) -> Result<String, Refusal>;
    let measures: [(&str, &str, &str, Measure); 3] = [
        (
            "lane",
            "The lane",
            "Sines of size 0.01, corner and rain as named, drive 0.1, send 0; wow and flutter go on.",
            lane,
        ),
        (
            "plate",
            "The plate",
            "An impulse of 0.5, corner 20,000 Hz, drive 0.1: what is heard at send 1 less what is heard at send 0.",
            plate,
        ),
        (
            "ceiling",
            "The ceiling",
            "A sine of 1 kHz and size 0.1, for 50 ms of size 4; corner 20,000 Hz, drive 0.1, send 0.",
            ceiling,
        ),
    ];
    for (name, title, how, measure) in measures {
        let mut own = String::new();
        fs::write(format!("{folder}/sheet/{name}.svg"), measure(&mut own)?)?;
        let _ = write!(figures, "\n### {title}\n\n{how}\n\n![{title}](sheet/{name}.svg)\n\n{own}");
    }
    figures += "\n### Flipped latches\n\nWhen the first NaN or infinity is delivered, of noise of size 1 at drive 1.6, send 0, daylight latched with \
                length 0 from one corner to the other and back:\n\n";
    flips(&mut figures)?;
    fs::write(&path, format!("{before}{BEGIN}{figures}\n{END}{after}"))?;
    Ok(())
}
