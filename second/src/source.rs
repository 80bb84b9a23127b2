//! What a made reel carries: sound, information words, programme bytes, a separator and labels.

use crate::bits::{self, Bit};
use crate::block;
use crate::frame;
use crate::numbers::Refusal;
use crate::programme::{self, Programme};
use crate::random::Random;
use crate::sample;
use crate::scale;
use crate::service::{Labels, CHANNELS, CHARACTERS, POSITIONS, SYNC_1, SYNC_2};
use crate::superframe::{letter, FRAMES, PROGRAMMES};
use std::collections::VecDeque;

/// The streams of random numbers, by what they are for.
const SOUND: u64 = 1;
const WORDS: u64 = 2;
const PROGRAMME_BYTES: u64 = 3;
const LABELS: u64 = 4;
const FREE_BYTES: u64 = 5;

/// Seven groups of programme bytes, a separator, eight groups of characters (directive 3R1, 3.4.4).
const SEPARATOR: usize = 7;
const GROUPS: usize = 16;
pub const CYCLE: usize = GROUPS * POSITIONS;
/// Where a reel starts in the cycle where nothing else is said: the place before the separator,
/// so that a reel of 73 superframes brings the labels.
pub const PHASE: usize = SEPARATOR * POSITIONS;

/// The 128 main frames of a superframe, 320 bits each.
pub type Frames = Vec<Vec<Bit>>;

/// The samples of one superframe, channel by channel, and their factors.
pub struct Sound {
    pub samples: Vec<[i16; FRAMES]>,
    pub factors: Vec<u8>,
}

/// Superframe after superframe.
pub struct Source {
    seed: u64,
    phase: usize,
    /// Of the superframe made last, counted from 1.
    number: u64,
    /// The sound of this superframe and of the next two: scale words go two ahead.
    sound: VecDeque<Sound>,
    programmes: [u8; CHANNELS],
    labels: Labels,
}

impl Source {
    /// `phase` is the place in the cycle, 1 to 128, at which the first superframe stands.
    pub fn new(seed: u64, phase: usize) -> Result<Source, Refusal> {
        let sound = (1..=2).map(|k| sound(seed, k));
        Ok(Source {
            seed,
            phase,
            number: 0,
            sound: sound.collect::<Result<_, _>>()?,
            programmes: programme_bytes(seed)?,
            labels: labels(seed),
        })
    }

    pub fn superframe(&mut self) -> Result<Frames, Refusal> {
        self.number += 1;
        self.sound.push_back(sound(self.seed, self.number + 2)?);
        let extra = self.extra_bits()?;
        let service = self.service_bits();
        let now = &self.sound[0];
        let mut frames = Vec::with_capacity(2 * FRAMES);
        for half in 0..2 {
            for (f, bit) in service.iter().enumerate() {
                let mut blocks = [[0; block::LENGTH]; 4];
                for (b, block) in blocks.iter_mut().enumerate() {
                    let b = 4 * half + b;
                    let mut codes = [0; 4];
                    for (c, code) in codes.iter_mut().enumerate() {
                        let channel = 4 * b + c;
                        let x = i32::from(now.samples[channel][f]);
                        *code = sample::code_of(x, now.factors[channel])?;
                    }
                    let extra = [extra[2 * b][f], extra[2 * b + 1][f]];
                    *block = block::write(&block::Content { codes, extra })?;
                }
                let letter = letter(FRAMES * half + f + 1);
                frames.push(frame::bits_of(letter, *bit, &blocks));
            }
        }
        self.sound.pop_front();
        Ok(frames)
    }

    /// The 64 extra bits of each programme, with the factors of the superframe after the next.
    fn extra_bits(&self) -> Result<Vec<Vec<Bit>>, Refusal> {
        let mut random = Random::stream(&[self.seed, WORDS, self.number]);
        let ahead = &self.sound[2].factors;
        let mut extra = Vec::with_capacity(PROGRAMMES);
        for programme in 0..PROGRAMMES {
            let factors = (ahead[2 * programme], ahead[2 * programme + 1]);
            let mut bits = scale::write(factors)?.repeat(3);
            bits.extend(random.bits::<{ scale::INFORMATION }>());
            extra.push(bits);
        }
        Ok(extra)
    }

    /// Six bytes of the group under way, then the sync of the next six.
    fn service_bits(&self) -> Vec<Bit> {
        let place = |superframe: u64| {
            let place = (self.phase as u64 - 1 + superframe - 1) % CYCLE as u64;
            (place as usize / POSITIONS, place as usize % POSITIONS)
        };
        let (group, position) = place(self.number);
        let mut random = Random::stream(&[self.seed, FREE_BYTES, self.number]);
        let mut six: [u8; 6] = std::array::from_fn(|_| free_byte(&mut random));
        for (c, byte) in six[..4].iter_mut().enumerate() {
            let channel = 4 * position + c;
            *byte = if group < SEPARATOR {
                self.programmes[channel]
            } else if group == SEPARATOR {
                0
            } else {
                self.labels[channel][group - SEPARATOR - 1]
            };
        }
        let (_, next) = place(self.number + 1);
        let sync = if next == 0 { SYNC_1 } else { SYNC_2 };
        [bits::of_bytes(&six), bits::of_text(sync)].concat()
    }
}

/// Each channel silent or at one of eight loudnesses, half of the time with a sample at the very edge.
pub fn sound(seed: u64, superframe: u64) -> Result<Sound, Refusal> {
    let mut random = Random::stream(&[seed, SOUND, superframe]);
    let mut samples = vec![[0; FRAMES]; CHANNELS];
    for channel in &mut samples {
        if random.percent(10) {
            continue;
        }
        let limit = 1 << (15 - random.below(8));
        for x in channel.iter_mut() {
            *x = random.between(-limit, limit - 1) as i16;
        }
        if random.percent(50) {
            channel[random.index(FRAMES)] = random.one_of(&[-limit, limit - 1]) as i16;
        }
    }
    let factors = samples.iter().map(|channel| sample::factor_of(channel));
    let factors = factors.collect::<Result<_, _>>()?;
    Ok(Sound { samples, factors })
}

/// Stereo, two mono channels, or nothing in each programme (directive 3R1, 3.4.2.1).
fn programme_bytes(seed: u64) -> Result<[u8; CHANNELS], Refusal> {
    const UNUSED: u8 = 0b0000_1001;
    let mut random = Random::stream(&[seed, PROGRAMME_BYTES]);
    let mut bytes = [UNUSED; CHANNELS];
    for pair in bytes.chunks_mut(2) {
        let modes = match random.below(4) {
            0 => continue,
            1 => [1, 1],
            _ => [1, 2],
        };
        for (byte, mode) in pair.iter_mut().zip(modes) {
            let kind = random.below(16) as u8;
            // In the right channel of a stereo pair the music bit is written 0.
            let music = if mode == 1 { random.bit() } else { 0 };
            *byte = programme::write(Programme { kind, music, mode })?;
        }
    }
    Ok(bytes)
}

fn labels(seed: u64) -> Labels {
    let mut random = Random::stream(&[seed, LABELS]);
    let mut labels = [[0; CHARACTERS]; CHANNELS];
    for character in labels.iter_mut().flatten() {
        *character = random.between(0x20, 0x7e) as u8;
    }
    labels
}

/// Bytes 5 and 6: XXXXX0XP, an even number of ones (directive 3R1, 3.4.2.3).
fn free_byte(random: &mut Random) -> u8 {
    let seven = random.byte() & 0b1111_1010;
    seven + (seven.count_ones() % 2) as u8
}
