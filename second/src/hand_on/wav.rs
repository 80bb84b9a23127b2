//! RIFF WAVE files: a header of 44 bytes, then pairs of a left and a right value, 32,000 a second.

use std::io::{self, Seek, Write};

const CHANNELS: u32 = 2;
/// Pairs a second.
pub const RATE: u32 = 32_000;
pub const HEADER: usize = 44;

/// Bits of a value.
pub const SOUND: u32 = 16;
pub const MARKS: u32 = 8;

/// The mark of a value in a lost superframe.
pub const LOST: u8 = 255;

/// The header before this many pairs.
pub fn header(bits: u32, pairs: u32) -> Vec<u8> {
    const PCM: u16 = 1;
    let pair = CHANNELS * bits / 8;
    let data = pairs * pair;
    let mut header = b"RIFF".to_vec();
    // What follows this number: the rest of the header and the data.
    header.extend((HEADER as u32 - 8 + data).to_le_bytes());
    header.extend(b"WAVEfmt ");
    header.extend(16u32.to_le_bytes());
    header.extend(PCM.to_le_bytes());
    header.extend((CHANNELS as u16).to_le_bytes());
    header.extend(RATE.to_le_bytes());
    header.extend((RATE * pair).to_le_bytes());
    header.extend((pair as u16).to_le_bytes());
    header.extend((bits as u16).to_le_bytes());
    header.extend(b"data");
    header.extend(data.to_le_bytes());
    header
}

/// Left, then right, each with the lower byte first.
pub fn sound_bytes([left, right]: [i16; 2]) -> [u8; 4] {
    let ([a, b], [c, d]) = (left.to_le_bytes(), right.to_le_bytes());
    [a, b, c, d]
}

/// Bytes of such a file have no sign: 128 is the middle.
pub fn mark_bytes(marks: [u8; 2]) -> [u8; 2] {
    marks.map(|mark| 128 + 16 * mark)
}

/// A file while it is written. Its header says no pairs until the end, when their number is known.
pub struct Track<W: Write + Seek> {
    bits: u32,
    pairs: u32,
    output: W,
}

impl<W: Write + Seek> Track<W> {
    pub fn start(bits: u32, mut output: W) -> io::Result<Track<W>> {
        output.write_all(&header(bits, 0))?;
        Ok(Track {
            bits,
            pairs: 0,
            output,
        })
    }

    /// One pair.
    pub fn put(&mut self, bytes: &[u8]) -> io::Result<()> {
        self.pairs += 1;
        self.output.write_all(bytes)
    }

    pub fn finish(mut self) -> io::Result<W> {
        self.output.rewind()?;
        self.output.write_all(&header(self.bits, self.pairs))?;
        self.output.flush()?;
        Ok(self.output)
    }
}
