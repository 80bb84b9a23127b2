//! The reel file: its header, runs, and walking through it (document 01, "Reel file and listing").

use crate::numbers::Refusal;
use crate::superframe;
use std::io::{self, Read, Write};

pub const HEADER: usize = 16;
pub const MOST: u64 = 1_000_000;

#[derive(Clone, Copy, Debug, PartialEq, Eq)]
pub struct Header {
    pub count: u32,
    /// The offset of the first superframe.
    pub first: u32,
}

/// Four big-endian 32-bit numbers; what lies behind the first 16 bytes is not looked at.
pub fn read_header(bytes: &[u8]) -> Result<Header, Refusal> {
    let Some(header) = bytes.get(..HEADER) else {
        return Err(Refusal::Header);
    };
    let field = |n: usize| {
        (0..4).fold(0, |sum: u32, byte| {
            sum << 8 | u32::from(header[4 * n + byte])
        })
    };
    let (count, first, summary, entries) = (field(0), field(1), field(2), field(3));
    if u64::from(count) > MOST || first < HEADER as u32 || summary != 0 || entries != 0 {
        return Err(Refusal::Header);
    }
    Ok(Header { count, first })
}

/// The number of superframes in a run of this length.
pub fn run_count(length: u64) -> Result<u64, Refusal> {
    let whole = superframe::BYTES as u64;
    if length % whole != 0 || length / whole > MOST {
        return Err(Refusal::Length);
    }
    Ok(length / whole)
}

/// Where superframe `k`, counted from 1, starts in a run of this length.
pub fn start_of(length: u64, k: u64) -> Result<u64, Refusal> {
    let count = run_count(length)?;
    if k < 1 || k > count {
        return Err(Refusal::Range);
    }
    Ok((k - 1) * superframe::BYTES as u64)
}

#[derive(Clone, Copy, Debug, PartialEq, Eq)]
pub enum End {
    /// The promised count was read.
    Ok,
    /// The input ended before.
    Short,
    /// The header is wrong or short.
    Refused,
}

impl End {
    /// The last line of what is said of a reel.
    pub fn write(self, output: &mut impl Write) -> io::Result<()> {
        match self {
            End::Ok => writeln!(output, "end ok"),
            End::Short => writeln!(output, "end short"),
            End::Refused => writeln!(output, "refused 8"),
        }
    }
}

/// Hands each whole superframe of the reel on, one after the other, and stops after the promised count.
/// Holds one superframe at a time.
pub fn walk(
    mut input: impl Read,
    mut hand_on: impl FnMut(&[u8]) -> io::Result<()>,
) -> io::Result<End> {
    let mut header = [0; HEADER];
    let got = fill(&mut input, &mut header)?;
    let Ok(header) = read_header(&header[..got]) else {
        return Ok(End::Refused);
    };
    if header.count == 0 {
        return Ok(End::Ok);
    }
    // The bytes before the first superframe may hold anything. Where they end early, so does the reel.
    let gap = u64::from(header.first) - HEADER as u64;
    io::copy(&mut input.by_ref().take(gap), &mut io::sink())?;
    let mut bytes = vec![0; superframe::BYTES];
    for _ in 0..header.count {
        if fill(&mut input, &mut bytes)? < bytes.len() {
            return Ok(End::Short);
        }
        hand_on(&bytes)?;
    }
    Ok(End::Ok)
}

/// Reads until the buffer is full or the input ends; a pipe may hand over less at a time.
fn fill(input: &mut impl Read, buffer: &mut [u8]) -> io::Result<usize> {
    let mut got = 0;
    while got < buffer.len() {
        match input.read(&mut buffer[got..]) {
            Ok(0) => break,
            Ok(more) => got += more,
            Err(error) if error.kind() == io::ErrorKind::Interrupted => {}
            Err(error) => return Err(error),
        }
    }
    Ok(got)
}
