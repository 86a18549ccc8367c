//! process IN.wav OUT.wav: a mono WAV at 44,100 Hz through a strip of the default setup, to a stereo WAV that goes on
//! until the strip rests. Frames stand where their samples stood.

mod common;

use std::error::Error;
use std::process::ExitCode;
use std::{env, fs};

use common::{Heard, wav};
use goqhari::{STORE_COUNTS, STORE_NUMBERS, Setup, Strip};

fn process(from: &str, to: &str) -> Result<(), Box<dyn Error>> {
    let (format, samples) = wav::read(&fs::read(from)?)?;
    let (mut store, mut counts) = (vec![0.0; STORE_NUMBERS], vec![0; STORE_COUNTS]);
    let mut strip = Strip::open(&Setup::default(), &mut store, &mut counts)?;
    let mut heard = Heard::default();
    // as a player would, buffer by buffer; any other size gives the same frames
    for buffer in samples.chunks(512) {
        heard.run(&mut strip, buffer, true)?;
    }
    heard.ring_out(&mut strip)?;
    fs::write(to, wav::write(format, heard.in_time())?)?;
    Ok(())
}

fn main() -> ExitCode {
    let words: Vec<String> = env::args().collect();
    let [_, from, to] = &words[..] else {
        eprintln!("use: process IN.wav OUT.wav");
        return ExitCode::from(2);
    };
    match process(from, to) {
        Ok(()) => ExitCode::SUCCESS,
        Err(why) => {
            eprintln!("process: {why}");
            ExitCode::FAILURE
        }
    }
}
