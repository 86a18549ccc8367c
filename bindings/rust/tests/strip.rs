//! The wrapper: its numbers are the header's, each refusal comes as its name, and however samples are divided the frames
//! are the same.

use goqhari::{
    CEILING, GAIN_UNIT, LATENCY, Latch, MAX_POSITION, NUMBERS, Pad, RATE, Refusal, STORE_COUNTS, STORE_NUMBERS, Setup,
    Strip, Tone, WORDS, gain,
};

const HEADER: &str = include_str!("../../../include/goqhari.h");

fn stores() -> (Vec<f64>, Vec<u64>) {
    (vec![0.5; STORE_NUMBERS + 1], vec![7; STORE_COUNTS + 1])
}

fn signal() -> Vec<f64> {
    (0..3000).map(|i| 3.0 * (0.05 * f64::from(i)).sin()).collect()
}

/// A number as the header defines it.
fn defined(name: &str) -> Option<&'static str> {
    let word =
        HEADER.lines().find_map(|line| line.strip_prefix("#define GOQHARI_")?.strip_prefix(name)?.strip_prefix(' '))?;
    Some(word.trim_start_matches("UINT64_C(").trim_end_matches([')', 'f']))
}

#[test]
fn the_header_has_these_numbers() {
    for (name, value) in [
        ("RATE", RATE.to_string()),
        ("NUMBERS", NUMBERS.to_string()),
        ("WORDS", WORDS.to_string()),
        ("STORE_NUMBERS", STORE_NUMBERS.to_string()),
        ("STORE_COUNTS", STORE_COUNTS.to_string()),
        ("MAX_POSITION", MAX_POSITION.to_string()),
        ("LATENCY", LATENCY.to_string()),
        ("GAIN_UNIT", GAIN_UNIT.to_string()),
        ("CEILING", CEILING.to_string()),
    ] {
        assert_eq!(defined(name), Some(&value[..]), "{name}");
    }
}

#[test]
fn any_division_gives_the_same() {
    let signal = signal();
    let kicks = [100, 1500];
    let setup = Setup { kicks: &kicks, pad: Some(Pad { rate: 3.0, depth: 0.4 }), ..Setup::default() };
    let all = [1, 64, 777, 3000].map(|size| {
        let (mut store, mut counts) = stores();
        let mut strip = Strip::open(&setup, &mut store, &mut counts).unwrap();
        let (mut frames, mut gains) = (vec![[0.0; 2]; signal.len()], vec![0; signal.len()]);
        for (i, samples) in signal.chunks(size).enumerate() {
            let at = i * size..i * size + samples.len();
            strip.run(samples, true, &mut frames[at.clone()], &mut gains[at]).unwrap();
        }
        assert_eq!(strip.rest(), Ok(false));
        assert_eq!((store[STORE_NUMBERS], counts[STORE_COUNTS]), (0.5, 7), "what lies beyond is not touched");
        (frames, gains)
    });
    assert!(all.iter().all(|heard| *heard == all[0]));
    let (frames, gains) = &all[0];
    assert!(
        frames[..LATENCY].iter().all(|frame| *frame == [0.0; 2]),
        "nothing is heard before the look-ahead has passed"
    );
    assert_eq!(gains[0], GAIN_UNIT);
    assert!(gains.iter().all(|&count| gain(count) <= 1.0) && gains.iter().any(|&count| gain(count) < 0.9));
    let peak = frames.as_flattened().iter().fold(0.0, |most: f32, side| most.max(side.abs()));
    assert!(peak <= CEILING && peak > 0.9 * CEILING, "{peak}");
}

/// What a strip with one corner plays under these points.
fn swept(positions: &[u64], values: &[f64]) -> Vec<[f32; 2]> {
    let (mut store, mut counts) = stores();
    let setup = Setup { tone: Tone::Fixed { corner: 8000.0, drive: 1.0 }, positions, values, ..Setup::default() };
    let mut strip = Strip::open(&setup, &mut store, &mut counts).unwrap();
    let signal = signal();
    let mut frames = vec![[0.0; 2]; signal.len()];
    strip.run(&signal, true, &mut frames, &mut vec![0; signal.len()]).unwrap();
    frames
}

#[test]
fn tied_points_count_as_one_with_the_lowest_value() {
    let lowest = swept(&[10, 74], &[0.5, 0.25]);
    assert_eq!(swept(&[10, 10, 74, 74, 74], &[0.5, 0.75, 1.0, 0.25, 0.5]), lowest);
    assert_eq!(swept(&[10, 10, 10, 74, 74], &[1.0, 0.5, 0.75, 0.25, 0.75]), lowest);
    assert_eq!(swept(&[10; 256], &[0.5; 256]), swept(&[10], &[0.5]));
    for other in [[0.75, 0.25], [0.5, 1.0], [0.5, 0.5]] {
        assert_ne!(swept(&[10, 74], &other), lowest, "{other:?}");
    }
}

#[test]
fn a_fresh_strip_rests() {
    let (mut store, mut counts) = stores();
    let strip = Strip::open(&Setup::default(), &mut store, &mut counts).unwrap();
    assert_eq!(strip.rest(), Ok(true));
}

/// What open declines by; the stores are left as they were.
fn declined(setup: Setup<'_>) -> Refusal {
    let (mut store, mut counts) = stores();
    let why = Strip::open(&setup, &mut store, &mut counts).unwrap_err();
    assert_eq!((store, counts), stores());
    why
}

#[test]
fn open_declines_by_name() {
    let fine = Setup::default();
    let (mut store, mut counts) = stores();
    assert_eq!(Strip::open(&fine, &mut store[..STORE_NUMBERS - 1], &mut counts).unwrap_err(), Refusal::StoreShort);
    assert_eq!(Strip::open(&fine, &mut store, &mut counts[..STORE_COUNTS - 1]).unwrap_err(), Refusal::StoreShort);
    assert_eq!(declined(Setup { send: f64::NAN, ..fine }), Refusal::BadSetup);
    assert_eq!(declined(Setup { tone: Tone::Fixed { corner: 19.0, drive: 1.0 }, ..fine }), Refusal::BadSetup);
    assert_eq!(declined(Setup { pad: Some(Pad { rate: 20.5, depth: 0.0 }), ..fine }), Refusal::BadSetup);
    assert_eq!(declined(Setup { kicks: &[5, 4], ..fine }), Refusal::BadList);
    assert_eq!(declined(Setup { positions: &[5], ..fine }), Refusal::BadList);
}

#[test]
fn runs_and_latches_decline_by_name() {
    let (mut store, mut counts) = stores();
    let mut strip = Strip::open(&Setup::default(), &mut store, &mut counts).unwrap();
    let (mut frames, mut gains) = ([[0.25; 2]; 4], [3; 4]);
    assert_eq!(strip.run(&[0.0; 3], true, &mut frames, &mut gains), Err(Refusal::BadOutput));
    assert_eq!(strip.run(&[0.0; 4], true, &mut frames, &mut gains[..3]), Err(Refusal::BadOutput));
    assert_eq!(strip.run(&[0.0, 0.0, 0.0, 1025.0], true, &mut frames, &mut gains), Err(Refusal::BadSample));
    assert_eq!((frames, gains), ([[0.25; 2]; 4], [3; 4]));
    let fine = Latch { daylight: 0.5, grading: 10, rain: 0.5, darkening: 10 };
    assert_eq!(strip.latch(fine), Ok(()));
    assert_eq!(strip.latch(Latch { rain: f32::NAN, ..fine }), Err(Refusal::BadControl));
    assert_eq!(strip.latch(Latch { grading: MAX_POSITION + 1, ..fine }), Err(Refusal::BadControl));
    assert_eq!(strip.run(&[], true, &mut [], &mut []), Ok(()));
    assert_eq!(Refusal::BadControl.number(), 8);
}
