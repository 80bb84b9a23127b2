//! Damage to superframes: which bits of the 128 main frames go wrong.

use crate::bits::{self, Bit};
use crate::block;
use crate::frame::{self, BITS, SERVICE, SYNC};
use crate::random::Random;
use crate::scale::{self, COPIES, WORD};
use crate::service::{SYNC_1, SYNC_2};
use crate::source::Frames;
use crate::superframe::{letter, FRAMES, PROGRAMMES};
use crate::word::PROTECTED;

#[derive(Clone, Copy, Debug, PartialEq, Eq)]
enum Kind {
    Places,
    UpTo,
    Rate,
    Burst,
    Low,
    Scale,
    Copy,
    Majority,
    Tie,
    Sync,
    Syncs,
    Service,
    Sync1,
    Sync2,
    Zero,
    BBit,
    Swap,
    Alternate,
    Chaff,
    Noise,
}

/// Each word with the largest amount behind its `=`; None where it takes no amount.
const WORDS: [(&str, Kind, Option<usize>); 20] = [
    ("places", Kind::Places, Some(PROTECTED)),
    ("upto", Kind::UpTo, Some(PROTECTED)),
    ("rate", Kind::Rate, Some(10_000)),
    ("burst", Kind::Burst, Some(BITS - 12)),
    ("low", Kind::Low, Some(12)),
    ("scale", Kind::Scale, Some(COPIES)),
    ("copy", Kind::Copy, None),
    ("majority", Kind::Majority, Some(WORD)),
    ("tie", Kind::Tie, None),
    ("sync", Kind::Sync, Some(SYNC)),
    ("syncs", Kind::Syncs, Some(SYNC)),
    ("service", Kind::Service, Some(16)),
    ("sync1", Kind::Sync1, None),
    ("sync2", Kind::Sync2, None),
    ("zero", Kind::Zero, None),
    ("bbit", Kind::BBit, None),
    ("swap", Kind::Swap, None),
    ("alternate", Kind::Alternate, None),
    ("chaff", Kind::Chaff, None),
    ("noise", Kind::Noise, None),
];

#[derive(Clone, Debug, PartialEq, Eq)]
pub struct Damage {
    kind: Kind,
    amount: usize,
    /// In percent of the superframes.
    chance: u64,
    first: u64,
    last: u64,
}

impl Damage {
    /// `WORD[=AMOUNT][%CHANCE][@FIRST[-LAST]]`. None where the word is not one of damage to superframes.
    pub fn parse(text: &str) -> Option<Result<Damage, String>> {
        let end = text.find(['=', '%', '@']).unwrap_or(text.len());
        let (word, rest) = text.split_at(end);
        let (_, kind, most) = WORDS.into_iter().find(|(name, ..)| *name == word)?;
        Some(Damage::parse_rest(kind, most, rest).map_err(|what| format!("{text}: {what}")))
    }

    fn parse_rest(kind: Kind, most: Option<usize>, rest: &str) -> Result<Damage, String> {
        let (rest, range) = match rest.split_once('@') {
            Some((rest, range)) => (rest, Some(range)),
            None => (rest, None),
        };
        let (amount, chance) = match rest.split_once('%') {
            Some((amount, chance)) => (amount, number(chance)?),
            None => (rest, 100),
        };
        if chance > 100 {
            return Err("a chance is at most 100 percent".to_string());
        }
        let amount = match (amount.strip_prefix('='), most) {
            (Some(text), Some(most)) => match number(text)? {
                amount if amount <= most as u64 => amount as usize,
                _ => return Err(format!("the amount is at most {most}")),
            },
            (None, None) => 0,
            (None, Some(most)) => return Err(format!("needs =AMOUNT, at most {most}")),
            (Some(_), None) => return Err("takes no amount".to_string()),
        };
        let (first, last) = match range {
            None => (1, u64::MAX),
            Some(range) => match range.split_once('-') {
                Some((first, last)) => (number(first)?, number(last)?),
                None => (number(range)?, number(range)?),
            },
        };
        Ok(Damage {
            kind,
            amount,
            chance,
            first,
            last,
        })
    }

    /// Damages superframe `k`, or leaves it alone.
    pub fn apply(&self, k: u64, frames: &mut Frames, random: &mut Random) {
        if k < self.first || k > self.last || !random.percent(self.chance) {
            return;
        }
        match self.kind {
            Kind::Places => in_each_block(frames, random, |random| {
                random.places(self.amount, PROTECTED)
            }),
            Kind::UpTo => in_each_block(frames, random, |random| {
                let count = random.index(self.amount + 1);
                random.places(count, PROTECTED)
            }),
            Kind::Low => in_each_block(frames, random, |random| {
                let places = random.places(self.amount, block::EXTRA - PROTECTED);
                places.into_iter().map(|n| PROTECTED + n).collect()
            }),
            Kind::Rate => {
                for bit in frames
                    .iter_mut()
                    .flat_map(|frame| &mut frame[SERVICE + 1..])
                {
                    *bit ^= u8::from(random.index(10_000) < self.amount);
                }
            }
            Kind::Burst => {
                for frame in frames {
                    let start = SERVICE + 1 + random.index(BITS - SERVICE - self.amount);
                    for bit in &mut frame[start..start + self.amount] {
                        *bit ^= 1;
                    }
                }
            }
            Kind::Scale => {
                for programme in 0..PROGRAMMES {
                    for f in random.places(self.amount, COPIES) {
                        *extra_bit(frames, programme, f) ^= 1;
                    }
                }
            }
            Kind::Copy => {
                for programme in 0..PROGRAMMES {
                    let copy = random.index(3);
                    for n in (0..WORD).filter(|_| random.percent(50)) {
                        *extra_bit(frames, programme, WORD * copy + n) ^= 1;
                    }
                }
            }
            Kind::Majority => {
                for programme in 0..PROGRAMMES {
                    for n in random.places(self.amount, WORD) {
                        for copy in random.places(2, 3) {
                            *extra_bit(frames, programme, WORD * copy + n) ^= 1;
                        }
                    }
                }
            }
            Kind::Tie => {
                for programme in 0..PROGRAMMES {
                    for (f, bit) in tie(random).into_iter().enumerate() {
                        *extra_bit(frames, programme, f) = bit;
                    }
                }
            }
            Kind::Sync => {
                let frame = random.index(frames.len());
                for n in random.places(self.amount, SYNC) {
                    frames[frame][n] ^= 1;
                }
            }
            Kind::Syncs => {
                for frame in frames {
                    for n in random.places(self.amount, SYNC) {
                        frame[n] ^= 1;
                    }
                }
            }
            Kind::Service => {
                for n in random.places(self.amount, 16) {
                    frames[48 + n][SERVICE] ^= 1;
                }
            }
            Kind::Sync1 => write_service_sync(frames, SYNC_1),
            Kind::Sync2 => write_service_sync(frames, SYNC_2),
            Kind::Zero => {
                for frame in &mut frames[..32] {
                    frame[SERVICE] = 0;
                }
            }
            Kind::BBit => {
                for frame in &mut frames[FRAMES..] {
                    frame[SERVICE] = 1;
                }
            }
            Kind::Swap => frames.rotate_left(FRAMES),
            Kind::Alternate => {
                let b = frames.split_off(FRAMES);
                let a = std::mem::take(frames);
                *frames = a.into_iter().zip(b).flat_map(|(a, b)| [a, b]).collect();
            }
            Kind::Chaff => {
                for (n, frame) in frames.iter_mut().enumerate() {
                    frame.fill_with(|| random.bit());
                    frame[..SYNC].copy_from_slice(&letter(n + 1).sync());
                }
            }
            Kind::Noise => {
                for frame in frames {
                    frame.fill_with(|| random.bit());
                }
            }
        }
    }
}

/// Turns, in each block of each frame, the places (counted from 0) that `choose` names.
fn in_each_block(
    frames: &mut Frames,
    random: &mut Random,
    choose: impl Fn(&mut Random) -> Vec<usize>,
) {
    for frame in frames {
        for block in 1..=4 {
            for n in choose(random) {
                frame[frame::place(block, n + 1) - 1] ^= 1;
            }
        }
    }
}

/// The extra bit of a programme, counted from 0, in frame `f`, counted from 0.
fn extra_bit(frames: &mut Frames, programme: usize, f: usize) -> &mut Bit {
    // Programmes 1 to 8 stand in A, two in a block; 9 to 16 in B.
    let (half, block, bit) = (programme / 8, programme % 8 / 2, programme % 2);
    let place = frame::place(block + 1, block::EXTRA + bit + 1);
    &mut frames[FRAMES * half + f][place - 1]
}

/// How many places apart the two scale words of a tie are.
const APART: usize = 6;

/// 42 bits that differ from two scale words in 9 places each: of the six places in which those two differ, three are turned
/// in one copy and three in two. From any third word they differ in 12 or more: it is 5 places or more from both,
/// so it differs from both at two places beside the six, in all copies, and at each of the six from one copy at least.
fn tie(random: &mut Random) -> Vec<Bit> {
    let (_, one) = &scale::words()[random.index(64)];
    let others = scale::words().iter().map(|(_, other)| other);
    let others: Vec<&Vec<Bit>> = others
        .filter(|other| bits::distance(one, other) == APART)
        .collect();
    let other = random.one_of(&others);
    let places: Vec<usize> = (0..WORD).filter(|n| one[*n] != other[*n]).collect();
    let mut copies = one.repeat(3);
    for (n, pick) in random.places(APART, APART).into_iter().enumerate() {
        for copy in random.places(1 + n % 2, 3) {
            copies[WORD * copy + places[pick]] ^= 1;
        }
    }
    copies
}

fn write_service_sync(frames: &mut Frames, sync: &str) {
    for (frame, bit) in frames[48..FRAMES].iter_mut().zip(bits::of_text(sync)) {
        frame[SERVICE] = bit;
    }
}

/// A number as it may stand on the command line.
pub fn number(text: &str) -> Result<u64, String> {
    text.parse()
        .map_err(|_| format!("'{text}' is not a number that fits"))
}
