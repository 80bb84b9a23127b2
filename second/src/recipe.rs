//! The superframe of a `take` line: a seed and 13 bytes make it, by a rule that both programs know. README.md gives the rule.

use crate::bits::{self, Bit};
use crate::block::{self, Block, Content};
use crate::frame;
use crate::numbers::Refusal;
use crate::scale::{self, COPIES, EXTRA, WORD};
use crate::service::CHANNELS;
use crate::superframe::{letter, FRAMES};
use crate::word::PROTECTED;

pub const BYTES: usize = 13;

/// What a number is drawn for.
#[derive(Clone, Copy)]
enum Kind {
    Code = 0,
    Factor = 1,
    Extra = 2,
    Block = 3,
}

#[derive(Clone, Debug, PartialEq, Eq)]
pub struct Recipe {
    pub seed: u32,
    /// The 64 service bits: six bytes and the sync behind them.
    pub service: [u8; 8],
    /// Of 256 protected bits of blocks so many are turned, more or less.
    pub rate: u8,
    /// And of 256 bits of scale words so many.
    pub scale: u8,
    /// The byte, counted from 0, of which some bits are turned.
    pub place: u16,
    /// Those bits.
    pub turned: u8,
}

impl Recipe {
    pub fn of(seed: u32, bytes: [u8; BYTES]) -> Recipe {
        let [s1, s2, s3, s4, s5, s6, s7, s8, rate, scale, high, low, turned] = bytes;
        Recipe {
            seed,
            service: [s1, s2, s3, s4, s5, s6, s7, s8],
            rate,
            scale,
            place: u16::from_be_bytes([high, low]),
            turned,
        }
    }

    pub fn bytes(&self) -> Vec<u8> {
        let mut bytes = self.service.to_vec();
        bytes.extend([self.rate, self.scale]);
        bytes.extend(self.place.to_be_bytes());
        bytes.push(self.turned);
        bytes
    }

    /// The 5,120 bytes.
    pub fn superframe(&self) -> Result<Vec<u8>, Refusal> {
        let service = bits::of_bytes(&self.service);
        let mut superframe = Vec::new();
        for n in 0..2 * FRAMES {
            let mut blocks = [[0; block::LENGTH]; 4];
            for (b, block) in blocks.iter_mut().enumerate() {
                *block = self.block(n, b)?;
            }
            let sent = frame::bits_of(letter(n + 1), service[n % FRAMES], &blocks);
            superframe.extend(bits::to_bytes(&sent));
        }
        if let Some(byte) = superframe.get_mut(usize::from(self.place)) {
            *byte ^= self.turned;
        }
        Ok(superframe)
    }

    /// Block `b` of main frame `n`, both counted from 0.
    fn block(&self, n: usize, b: usize) -> Result<Block, Refusal> {
        let (half, f) = (n / FRAMES, n % FRAMES);
        let first = 16 * half + 4 * b;
        let code = |c| i32::from(self.number(Kind::Code, CHANNELS * f + first + c) / 4) - 8192;
        let programme = first / 2;
        let content = Content {
            codes: std::array::from_fn(code),
            extra: [self.extra(programme, f)?, self.extra(programme + 1, f)?],
        };
        let mut block = block::write(&content)?;
        for (k, bit) in block[..PROTECTED].iter_mut().enumerate() {
            *bit ^= self.turn(Kind::Block, 64 * (4 * n + b) + k, self.rate);
        }
        Ok(block)
    }

    /// Extra bit `f` of a programme, both counted from 0.
    fn extra(&self, programme: usize, f: usize) -> Result<Bit, Refusal> {
        let place = EXTRA * programme + f;
        if f >= COPIES {
            return Ok((self.number(Kind::Extra, place) % 2) as Bit);
        }
        let factor = |channel| (self.number(Kind::Factor, channel) % 8) as u8;
        let word = scale::write((factor(2 * programme), factor(2 * programme + 1)))?;
        Ok(word[f % WORD] ^ self.turn(Kind::Extra, place, self.scale))
    }

    /// 1 where the bit at this place is turned.
    fn turn(&self, kind: Kind, place: usize, rate: u8) -> Bit {
        Bit::from(self.number(kind, place) % 256 < u16::from(rate))
    }

    /// A number of 16 bits for each kind and place.
    fn number(&self, kind: Kind, place: usize) -> u16 {
        let name = ((kind as u32) << 16) + place as u32;
        let x = stirred(stirred(self.seed, name), INCREMENT);
        (stirred(x, INCREMENT) >> 16) as u16
    }
}

const INCREMENT: u32 = 1_013_904_223;

fn stirred(x: u32, more: u32) -> u32 {
    (x ^ x >> 16).wrapping_mul(1_664_525).wrapping_add(more)
}
