//! A reader as one writes it at first: bit by bit, by the directive and docs/FORMAT.md, and without tables but for what each of the 63 places alone leaves and
//! the 64 scale words sent three times. It does the work of taking a superframe: syncs, blocks, samples, marks, counts and the factors for the superframe after the next.

// With iterators in their place it takes a third longer for two wrong places.
#![allow(clippy::needless_range_loop)]

use crate::{Beside, Lists, BYTES, CHANNELS, FRAMES, MISSING};

const SYNC_A: u16 = 0b111_0001_0010;
const SYNC_B: u16 = 0b000_1110_1101;

/// x^19 + x^15 + x^10 + x^9 + x^8 + x^6 + x^4 + 1, without its highest power.
const GENERATOR: u32 = 0b000_1000_0111_0101_0001;
const DEGREE: u32 = 19;
const PROTECTED: usize = 63;
const BLOCK: usize = 77;

/// x^8 + x^7 + x^6 + x^4 + 1, without its highest power.
const SCALE_GENERATOR: u16 = 0b1101_0001;

pub struct Plain {
    /// What each place of the 63 alone leaves.
    columns: [u32; PROTECTED],
    /// The 64 scale words, each sent three times: 42 bits.
    sent: [u64; 64],
}

fn bit(frame: &[u8], place: usize) -> u8 {
    frame[place / 8] >> (7 - place % 8) & 1
}

fn wrong_sync_bits(frame: &[u8], word: u16) -> u32 {
    let mut read = 0;
    for place in 0..11 {
        read = read << 1 | u16::from(bit(frame, place));
    }
    (read ^ word).count_ones()
}

fn divided(register: u32, bit: u8) -> u32 {
    let next = register << 1 | u32::from(bit);
    if next >> DEGREE & 1 == 1 {
        (next ^ GENERATOR) & ((1 << DEGREE) - 1)
    } else {
        next
    }
}

fn remainder(bits: &[u8]) -> u32 {
    bits.iter().fold(0, |register, bit| divided(register, *bit))
}

fn scale_word(factors: u16) -> u16 {
    let mut register = 0;
    for place in (0..14).rev() {
        register = register << 1 | ((factors << 8) >> place & 1);
        if register >> 8 & 1 == 1 {
            register = (register ^ SCALE_GENERATOR) & 0xff;
        }
    }
    factors << 8 | register
}

/// Block `block` of a main frame, from 0: blocks 0 and 1 are interleaved from bit 12 on, 2 and 3 from bit 166 on.
fn block_of(frame: &[u8], block: usize) -> [u8; BLOCK] {
    let first = 12 + 2 * BLOCK * (block / 2) + block % 2;
    let mut bits = [0; BLOCK];
    for (place, bit_of_block) in bits.iter_mut().enumerate() {
        *bit_of_block = bit(frame, first + 2 * place);
    }
    bits
}

fn code(bits: &[u8; BLOCK], channel: usize) -> i16 {
    let mut pattern = 0i16;
    for place in 11 * channel..11 * channel + 11 {
        pattern = pattern << 1 | i16::from(bits[place]);
    }
    for place in 63 + 3 * channel..63 + 3 * channel + 3 {
        pattern = pattern << 1 | i16::from(bits[place]);
    }
    if pattern >= 1 << 13 {
        pattern - (1 << 14)
    } else {
        pattern
    }
}

fn sample(code: i16, factor: u8) -> i16 {
    match factor {
        0 => code * 4,
        1 => code * 2,
        2..=7 => code >> (factor - 2),
        _ => 0,
    }
}

impl Plain {
    pub fn new() -> Self {
        let mut columns = [0; PROTECTED];
        for (place, column) in columns.iter_mut().enumerate() {
            let mut word = [0; PROTECTED];
            word[place] = 1;
            *column = remainder(&word);
        }
        let mut sent = [0; 64];
        for (factors, copies) in sent.iter_mut().enumerate() {
            let word = u64::from(scale_word(factors as u16));
            *copies = word << 28 | word << 14 | word;
        }
        Self { columns, sent }
    }

    /// Turns the wrong places of a block and answers its mark: 0 clean, 1 mended, 2 bad.
    fn mend(&self, bits: &mut [u8; BLOCK]) -> u8 {
        let left = remainder(&bits[..PROTECTED]);
        if left == 0 {
            return 0;
        }
        for place in 0..PROTECTED {
            if self.columns[place] == left {
                bits[place] ^= 1;
                return 1;
            }
        }
        for one in 0..PROTECTED {
            for other in one + 1..PROTECTED {
                if self.columns[one] ^ self.columns[other] == left {
                    bits[one] ^= 1;
                    bits[other] ^= 1;
                    return 1;
                }
            }
        }
        2
    }

    /// The two factors in the 64 extra bits of a programme: of the 64 scale words, sent three times, those of the only nearest.
    fn factors(&self, extra: &[u8; FRAMES]) -> [u8; 2] {
        let mut came = 0u64;
        for place in 0..42 {
            came = came << 1 | u64::from(extra[place]);
        }
        let mut fewest = u32::MAX;
        let mut read = [MISSING; 2];
        for (factors, copies) in self.sent.iter().enumerate() {
            let places = (copies ^ came).count_ones();
            if places < fewest {
                fewest = places;
                read = [factors as u8 / 8, factors as u8 % 8];
            } else if places == fewest {
                read = [MISSING; 2];
            }
        }
        read
    }

    /// As `crate::proved::take` does, of lengths that fit and factors in their range.
    pub fn take(&self, beside: &mut Beside, bytes: &[u8; BYTES], lists: &mut Lists) -> u8 {
        let frames: Vec<&[u8]> = bytes.chunks_exact(40).collect();
        for (number, frame) in frames.iter().enumerate() {
            let word = if number < FRAMES { SYNC_A } else { SYNC_B };
            if wrong_sync_bits(frame, word) > 2 {
                beside.lose();
                return 3;
            }
        }
        let mut extra = [[0u8; FRAMES]; 16];
        let mut counts = [0u8; 24];
        for number in 0..FRAMES {
            for position in 0..8 {
                let mut bits = block_of(frames[number + FRAMES * (position / 4)], position % 4);
                extra[2 * position][number] = bits[75];
                extra[2 * position + 1][number] = bits[76];
                let mark = self.mend(&mut bits);
                counts[8 * usize::from(mark) + position] += 1;
                for channel in 0..4 {
                    let of_all = 4 * position + channel;
                    let factor = beside.factors[of_all];
                    let place = CHANNELS * number + of_all;
                    lists.samples[place] = sample(code(&bits, channel), factor);
                    lists.marks[place] = if factor == MISSING { 3 } else { mark };
                }
            }
        }
        let mut read = [0; CHANNELS];
        for (programme, bits) in extra.iter().enumerate() {
            read[2 * programme..2 * programme + 2].copy_from_slice(&self.factors(bits));
        }
        beside.advance(read, counts);
        0
    }
}
