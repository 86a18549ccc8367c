//! WAV files of 16-bit or float numbers: read with one channel at 44,100 Hz, written with two. Whatever the bytes are,
//! reading them gives samples or says what is wrong.

use goqhari::RATE;

/// How a file keeps its numbers.
#[derive(Clone, Copy, Debug, PartialEq)]
pub enum Format {
    /// 16-bit whole numbers.
    Whole,
    /// 32-bit floats.
    Float,
}

impl Format {
    fn bytes(self) -> u16 {
        match self {
            Self::Whole => 2,
            Self::Float => 4,
        }
    }

    fn tag(self) -> u16 {
        match self {
            Self::Whole => 1,
            Self::Float => 3,
        }
    }

    /// A sample of the file, as the strip takes it.
    fn sample(self, bytes: &[u8]) -> f64 {
        match *bytes {
            [a, b] => f64::from(i16::from_le_bytes([a, b])) / 32_768.0,
            [a, b, c, d] => f64::from(f32::from_le_bytes([a, b, c, d])),
            _ => 0.0,
        }
    }

    /// A side of a frame, as the file keeps it. A whole number is the nearest, and a NaN is 0.
    fn side(self, side: f32, out: &mut Vec<u8>) {
        match self {
            Self::Whole => out.extend(((f64::from(side) * 32_767.0 + 0.5).floor() as i16).to_le_bytes()),
            Self::Float => out.extend(side.to_le_bytes()),
        }
    }
}

fn word(bytes: &[u8], at: usize) -> Option<u16> {
    Some(u16::from_le_bytes(bytes.get(at..at + 2)?.try_into().ok()?))
}

fn long(bytes: &[u8], at: usize) -> Option<u32> {
    Some(u32::from_le_bytes(bytes.get(at..at + 4)?.try_into().ok()?))
}

/// The format that a `fmt ` chunk names. An extensible one has its tag at the front of its sub-format.
fn format_of(chunk: &[u8]) -> Result<Format, &'static str> {
    let cut = "the file's fmt chunk is cut short";
    let mut tag = word(chunk, 0).ok_or(cut)?;
    if tag == 0xfffe {
        tag = word(chunk, 24).ok_or(cut)?;
    }
    if word(chunk, 2).ok_or(cut)? != 1 {
        return Err("the file has more channels than one");
    }
    if long(chunk, 4).ok_or(cut)? != RATE {
        return Err("the file's rate is not 44,100 Hz");
    }
    match (tag, word(chunk, 14).ok_or(cut)?) {
        (1, 16) => Ok(Format::Whole),
        (3, 32) => Ok(Format::Float),
        _ => Err("the file's numbers are neither 16-bit nor float"),
    }
}

/// The samples of a file with one channel.
pub fn read(bytes: &[u8]) -> Result<(Format, Vec<f64>), &'static str> {
    if bytes.get(..4) != Some(b"RIFF") || bytes.get(8..12) != Some(b"WAVE") {
        return Err("the file is no WAV");
    }
    let mut format = None;
    let mut rest = &bytes[12..];
    while let (Some(name), Some(len)) = (rest.get(..4), long(rest, 4)) {
        let len = usize::try_from(len).map_err(|_| "the file is too large")?;
        let chunk = rest[8..].get(..len).ok_or("the file is cut short")?;
        if name == b"fmt " {
            format = Some(format_of(chunk)?);
        } else if name == b"data" {
            let format: Format = format.ok_or("the file has its data before its format")?;
            let samples = chunk.chunks_exact(format.bytes().into());
            if !samples.remainder().is_empty() {
                return Err("the file ends within a sample");
            }
            return Ok((format, samples.map(|sample| format.sample(sample)).collect()));
        }
        // a chunk of odd length is padded
        rest = rest.get(8 + len + len % 2..).unwrap_or(&[]);
    }
    Err("the file has no data")
}

/// A file of frames.
pub fn write(format: Format, frames: &[[f32; 2]]) -> Result<Vec<u8>, &'static str> {
    let block = 2 * format.bytes();
    let len = u32::try_from(frames.len() * usize::from(block)).map_err(|_| "the frames are too many for a WAV")?;
    let whole = len.checked_add(36).ok_or("the frames are too many for a WAV")?;
    let mut out = Vec::new();
    out.extend(b"RIFF");
    out.extend(whole.to_le_bytes());
    out.extend(b"WAVEfmt ");
    out.extend(16u32.to_le_bytes());
    out.extend(format.tag().to_le_bytes());
    out.extend(2u16.to_le_bytes());
    out.extend(RATE.to_le_bytes());
    out.extend((RATE * u32::from(block)).to_le_bytes());
    out.extend(block.to_le_bytes());
    out.extend((8 * format.bytes()).to_le_bytes());
    out.extend(b"data");
    out.extend(len.to_le_bytes());
    for &side in frames.as_flattened() {
        format.side(side, &mut out);
    }
    Ok(out)
}
