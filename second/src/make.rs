//! Making reels, good, damaged, cut and absurd.

use crate::bits;
use crate::damage::{number, Damage};
use crate::numbers::Refusal;
use crate::random::Random;
use crate::reel::HEADER;
use crate::source::{Source, CYCLE, PHASE};
use crate::superframe;
use std::io::{self, Write};

/// The streams of random numbers, by what they are for; those of the sound are in `source`.
const GAP: u64 = 101;
const TAIL: u64 = 102;
const DAMAGE: u64 = 103;

/// What a reel shall be. Where a number is None, the right one is written.
#[derive(Debug, Default)]
pub struct Order {
    seed: u64,
    superframes: u64,
    damage: Vec<Damage>,
    gap: u64,
    tail: u64,
    cut: Option<u64>,
    short: u64,
    headless: bool,
    count: Option<u64>,
    first: Option<u64>,
    summary: u64,
    entries: u64,
    phase: Option<u64>,
}

impl Order {
    pub fn parse(seed: &str, superframes: &str, words: &[String]) -> Result<Order, String> {
        let mut order = Order {
            seed: number(seed)?,
            superframes: number(superframes)?,
            ..Order::default()
        };
        for word in words {
            match Damage::parse(word) {
                Some(damage) => order.damage.push(damage?),
                None => order.take_word(word)?,
            }
        }
        Ok(order)
    }

    /// The words that are about the reel as a whole.
    fn take_word(&mut self, text: &str) -> Result<(), String> {
        const FIELD: u64 = u32::MAX as u64;
        const LONG: u64 = 1 << 40;
        if text == "headless" {
            self.headless = true;
            return Ok(());
        }
        let Some((word, value)) = text.split_once('=') else {
            return Err(format!("{text}: no such word of damage"));
        };
        let value = number(value)?;
        let most = match word {
            "count" | "first" | "summary" | "entries" => FIELD,
            "gap" => FIELD - HEADER as u64,
            "tail" | "cut" | "short" => LONG,
            "phase" => CYCLE as u64,
            _ => return Err(format!("{text}: no such word of damage")),
        };
        if value > most || word == "phase" && value == 0 {
            return Err(format!("{text}: out of its range (at most {most})"));
        }
        match word {
            "count" => self.count = Some(value),
            "first" => self.first = Some(value),
            "summary" => self.summary = value,
            "entries" => self.entries = value,
            "gap" => self.gap = value,
            "tail" => self.tail = value,
            "cut" => self.cut = Some(value),
            "short" => self.short = value,
            _ => self.phase = Some(value),
        }
        Ok(())
    }

    fn header(&self) -> Vec<u8> {
        if self.headless {
            return Vec::new();
        }
        let count = self.count.unwrap_or(self.superframes);
        let first = self.first.unwrap_or(HEADER as u64 + self.gap);
        let fields = [count, first, self.summary, self.entries];
        let bytes = fields.map(|field| (field as u32).to_be_bytes());
        bytes.concat()
    }

    /// How many bytes of the reel are written before it is cut off.
    fn length(&self) -> u64 {
        let superframes = self.superframes.saturating_mul(superframe::BYTES as u64);
        let whole = self.header().len() as u64 + self.gap + self.tail;
        let whole = whole.saturating_add(superframes);
        let cut = whole.saturating_sub(self.short);
        self.cut.map_or(cut, |at| cut.min(at))
    }
}

/// Writes the reel; holds one superframe at a time.
pub fn make(order: &Order, output: &mut impl Write) -> io::Result<()> {
    let mut output = Cut {
        output,
        left: order.length(),
    };
    output.write(&order.header())?;
    output.write_noise(order.gap, &mut Random::stream(&[order.seed, GAP]))?;
    let phase = order.phase.unwrap_or(PHASE as u64) as usize;
    let mut source = Source::new(order.seed, phase).map_err(unmade)?;
    for k in 1..=order.superframes {
        if output.left == 0 {
            return Ok(());
        }
        let mut frames = source.superframe().map_err(unmade)?;
        for (n, damage) in order.damage.iter().enumerate() {
            let mut random = Random::stream(&[order.seed, DAMAGE, n as u64, k]);
            damage.apply(k, &mut frames, &mut random);
        }
        output.write(&bits::to_bytes(&frames.concat()))?;
    }
    output.write_noise(order.tail, &mut Random::stream(&[order.seed, TAIL]))
}

/// No content that `source` thinks of is refused by the writers; if one were, it would be said.
fn unmade(refusal: Refusal) -> io::Error {
    io::Error::other(format!("the reel's content was refused: {refusal:?}"))
}

/// Writes up to a number of bytes and drops the rest.
struct Cut<'a, W: Write> {
    output: &'a mut W,
    left: u64,
}

impl<W: Write> Cut<'_, W> {
    fn write(&mut self, bytes: &[u8]) -> io::Result<()> {
        let count = self.left.min(bytes.len() as u64);
        self.left -= count;
        self.output.write_all(&bytes[..count as usize])
    }

    fn write_noise(&mut self, length: u64, random: &mut Random) -> io::Result<()> {
        for _ in 0..length.min(self.left) {
            self.write(&[random.byte()])?;
        }
        Ok(())
    }
}
