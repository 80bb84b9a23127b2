//! The main frame of 320 bits, 40 bytes (document 01, "Main frame").

use crate::bits::{self, Bit};
use crate::block::{self, Block};
use crate::numbers::Refusal;

pub const BYTES: usize = 40;
pub const BITS: usize = 320;
pub const SYNC: usize = 11;
/// A sync with more wrong bits is refused (document 02, P1).
pub const MOST_WRONG: usize = 2;
/// Bit 12.
pub const SERVICE: usize = 11;

#[derive(Clone, Copy, Debug, PartialEq, Eq)]
pub enum Letter {
    A,
    B,
}

impl Letter {
    pub fn sync(self) -> Vec<Bit> {
        bits::of_text(match self {
            Letter::A => "11100010010",
            Letter::B => "00011101101",
        })
    }
}

/// Where bit `bit` of block `block` stands in the main frame, all three counted from 1. Blocks 1 and 2
/// are interleaved bit by bit from bit 13, then 3 and 4 from bit 167; the lower block goes first.
pub fn place(block: usize, bit: usize) -> usize {
    let (pair, second) = ((block - 1) / 2, (block - 1) % 2);
    13 + 2 * block::LENGTH * pair + 2 * (bit - 1) + second
}

/// The 320 bits. In B the service bit is written 0.
pub fn bits_of(letter: Letter, service: Bit, blocks: &[Block; 4]) -> Vec<Bit> {
    let mut frame = letter.sync();
    frame.resize(BITS, 0);
    if letter == Letter::A {
        frame[SERVICE] = service;
    }
    for (b, block) in blocks.iter().enumerate() {
        for (n, bit) in block.iter().enumerate() {
            frame[place(b + 1, n + 1) - 1] = *bit;
        }
    }
    frame
}

pub fn write(
    letter: Letter,
    service: Bit,
    blocks: &[Block; 4],
    lent: &mut [u8],
) -> Result<(), Refusal> {
    if lent.len() != BYTES {
        return Err(Refusal::Length);
    }
    if service > 1 || !blocks.iter().all(|block| bits::all_in_range(block)) {
        return Err(Refusal::Range);
    }
    lent.copy_from_slice(&bits::to_bytes(&bits_of(letter, service, blocks)));
    Ok(())
}

/// A main frame as received; nothing in it is put right.
#[derive(Clone, Debug, PartialEq, Eq)]
pub struct Frame {
    /// In how many bits its sync differs from the letter's.
    pub wrong: u8,
    /// In B always 0.
    pub service: Bit,
    pub blocks: [Block; 4],
}

pub fn read(letter: Letter, bytes: &[u8]) -> Result<Frame, Refusal> {
    if bytes.len() != BYTES {
        return Err(Refusal::Length);
    }
    let frame = bits::of_bytes(bytes);
    let sync = letter.sync();
    let wrong = (0..SYNC).filter(|n| frame[*n] != sync[*n]).count();
    if wrong > MOST_WRONG {
        return Err(Refusal::Sync);
    }
    let service = match letter {
        Letter::A => frame[SERVICE],
        Letter::B => 0,
    };
    let mut blocks = [[0; block::LENGTH]; 4];
    for (b, block) in blocks.iter_mut().enumerate() {
        for (n, bit) in block.iter_mut().enumerate() {
            *bit = frame[place(b + 1, n + 1) - 1];
        }
    }
    Ok(Frame {
        wrong: wrong as u8,
        service,
        blocks,
    })
}
