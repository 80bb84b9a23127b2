//! The block of 77 bits: 44 sound bits, 19 check bits, 12 sound bits, 2 extra bits (document 01, "The block").

use crate::bits::{self, Bit};
use crate::numbers::Refusal;
use crate::radius;
use crate::word::{self, Reading, PROTECTED, SOUND};

pub const LENGTH: usize = 77;
pub type Block = [Bit; LENGTH];

/// Each of four codes gives its upper 11 bits to the 44 and its lower 3 to the 12.
const UPPER: usize = 11;
const LOWER: usize = 3;
/// Where the 2 extra bits start: bit 76.
pub const EXTRA: usize = 75;

/// Four codes, in channel order left, right of the first programme, left, right of the second,
/// and the extra bit of each programme.
#[derive(Clone, Copy, Debug, PartialEq, Eq)]
pub struct Content {
    pub codes: [i32; 4],
    pub extra: [Bit; 2],
}

pub fn write(content: &Content) -> Result<Block, Refusal> {
    let codes_fit = content.codes.iter().all(|c| (-8192..=8191).contains(c));
    if !codes_fit || !bits::all_in_range(&content.extra) {
        return Err(Refusal::Range);
    }
    let mut upper = Vec::with_capacity(LENGTH);
    let mut lower = Vec::new();
    for code in content.codes {
        // Two's complement: a negative code stands as 2^14 more.
        let fourteen = bits::of_number((code & 0x3fff) as u64, UPPER + LOWER);
        upper.extend(&fourteen[..UPPER]);
        lower.extend(&fourteen[UPPER..]);
    }
    let check = word::check_bits(&upper);
    let mut block = [0; LENGTH];
    let parts = [upper, check, lower, content.extra.to_vec()].concat();
    block.copy_from_slice(&parts);
    Ok(block)
}

/// The reading of the protected bits at a radius, and the block with them mended. The last 14 bits pass unchanged.
pub fn read(radius: u8, block: &Block) -> Result<(Reading, Block), Refusal> {
    if !radius::in_range(radius) || !bits::all_in_range(block) {
        return Err(Refusal::Range);
    }
    let mut out = *block;
    let reading = word::read(radius, &mut out[..PROTECTED]);
    Ok((reading, out))
}

/// The codes and extra bits that stand in the block, whatever its check bits say.
pub fn content(block: &Block) -> Result<Content, Refusal> {
    if !bits::all_in_range(block) {
        return Err(Refusal::Range);
    }
    let mut codes = [0; 4];
    for (channel, code) in codes.iter_mut().enumerate() {
        let upper = &block[..SOUND][UPPER * channel..][..UPPER];
        let lower = &block[PROTECTED..EXTRA][LOWER * channel..][..LOWER];
        let number = bits::to_number(&[upper, lower].concat()) as i32;
        *code = if number < 8192 {
            number
        } else {
            number - 16384
        };
    }
    Ok(Content {
        codes,
        extra: [block[EXTRA], block[EXTRA + 1]],
    })
}
