//! Call lines: one call of one leaf function a line, and its answer. README.md gives the grammar.

use crate::bits::Bit;
use crate::block::{self, Block};
use crate::frame::{self, Letter};
use crate::numbers::Refusal;
use crate::programme::{self, Programme};
use crate::radius;
use crate::recipe::Recipe;
use crate::reel;
use crate::sample;
use crate::scale::{self, Extra, Near};
use crate::service::{Heard, Service, Sync, CHANNELS, CHARACTERS};
use crate::superframe::{self, State, PROGRAMMES};
use crate::taking::{self, Lengths, MOST_LENT};
use crate::text;
use crate::totals::{Numbers, Totals};
use crate::word::Reading;
use std::str::Split;

/// The most bytes of a run of bytes whose length is free, and of a lent buffer.
pub const MOST_BYTES: usize = 64;
pub const MOST_SAMPLES: usize = 80;
/// The most numbers that one `codes` or `samples` goes through.
pub const MOST_SWEPT: i64 = 4096;
/// Four superframes.
pub const MOST_RUN: i64 = 4 * superframe::BYTES as i64;

/// Stands for bad: one more than the places of a block that is mended.
const BAD: usize = radius::WIDE as usize + 1;

/// The answer to a call, or None where the line cannot be read.
pub fn answer(line: &str) -> Option<String> {
    let mut words = Words(line.split(' '));
    let answer = match words.next()? {
        "bwrite" => {
            let codes = words.array(Words::signed)?;
            let extra = words.array(Words::small)?;
            let block = block::write(&block::Content { codes, extra });
            one(block.map(|block| text::digits(&block)))
        }
        "bread" => {
            let radius = words.small()?;
            let read = block::read(radius, &words.digits()?);
            one(read.map(|(reading, block)| {
                let reading = match reading {
                    Reading::Clean => 0,
                    Reading::Mended(places) => places,
                    Reading::Bad => BAD,
                };
                format!("{reading} {}", text::digits(&block))
            }))
        }
        "bcodes" => {
            let content = block::content(&words.digits()?);
            one(content.map(|block::Content { codes, extra }| {
                format!("{} {}", text::spaced(codes), text::spaced(extra))
            }))
        }
        "fwrite" => {
            let letter = words.letter()?;
            let service = words.small()?;
            let blocks: [Block; 4] = words.array(Words::digits)?;
            let length = words.number(0, MOST_BYTES as i64)? as usize;
            let mut lent = vec![words.small()?; length];
            let number = match frame::write(letter, service, &blocks, &mut lent) {
                Ok(()) => 0,
                Err(refusal) => refusal.number(),
            };
            format!("{number} {}", hex_or_dash(&lent))
        }
        "fread" => {
            let letter = words.letter()?;
            let frame = frame::read(letter, &words.bytes()?);
            one(frame.map(|frame| {
                let blocks = frame.blocks.iter().map(|block| text::digits(block));
                format!("{} {} {}", frame.wrong, frame.service, text::spaced(blocks))
            }))
        }
        "code" => {
            let (x, factor) = (words.signed()?, words.small()?);
            one(sample::code_of(x, factor))
        }
        "sample" => {
            let (code, factor) = (words.signed()?, words.small()?);
            one(sample::sample_of(code, factor))
        }
        "codes" => words.sweep(sample::code_of)?,
        "samples" => words.sweep(sample::sample_of)?,
        "factor" => one(sample::factor_of(&words.samples()?)),
        "swrite" => {
            let factors = (words.small()?, words.small()?);
            one(scale::write(factors).map(|word| text::digits(&word)))
        }
        "sread" => {
            let near = scale::read(&words.digits()?);
            one(near.map(near_text))
        }
        "sextra" => match scale::read_extra(&words.digits()?) {
            Ok(Extra { near, information }) => match near {
                Some(near) => format!("0 {} {information}", near_text(near)),
                None => format!("{} {information}", Refusal::ScaleWord.number()),
            },
            Err(refusal) => refusal.number().to_string(),
        },
        "pread" => {
            let read = programme::read(words.small()?);
            one(read.map(|p| format!("{} {} {}", p.kind, p.music, p.mode)))
        }
        "pwrite" => {
            let [kind, music, mode] = words.array(Words::small)?;
            one(programme::write(Programme { kind, music, mode }))
        }
        "name" => {
            let name = programme::name_of(words.small()?);
            one(name.map(|name| text::hex(name.as_bytes())))
        }
        "header" => {
            let header = reel::read_header(&words.bytes()?);
            one(header.map(|header| format!("{} {}", header.count, header.first)))
        }
        "run" => one(reel::run_count(words.number(0, MOST_RUN)? as u64)),
        "part" => {
            let length = words.number(0, MOST_RUN)? as u64;
            let k = u64::from(words.large()?);
            match reel::start_of(length, k) {
                Ok(start) => format!("0 {} {start}", superframe::BYTES),
                Err(refusal) => format!("{} 0", refusal.number()),
            }
        }
        "fresh" => format!("0 {}", state_text(&State::fresh())),
        "lose" => {
            let state = words.state()?;
            next_text(&state, state.lose())
        }
        "reset" => {
            let state = words.state()?;
            next_text(&state, state.reset())
        }
        "service" => {
            let state = words.state()?;
            let six: [u8; 6] = words.bytes_of_length()?;
            let sync: [Bit; 16] = words.digits()?;
            match state.take_service(&six, &sync) {
                Ok((heard, next)) => format!("0 {} {}", heard_text(&heard), state_text(&next)),
                Err(refusal) => format!("{} {}", refusal.number(), state_text(&state)),
            }
        }
        "take" => {
            let radius = words.small()?;
            let lengths = Lengths {
                bytes: words.number(0, taking::MOST_BYTES as i64)? as usize,
                samples: words.number(0, MOST_LENT as i64)? as usize,
                marks: words.number(0, MOST_LENT as i64)? as usize,
            };
            let seed = words.large()?;
            let recipe = Recipe::of(seed, words.bytes_of_length()?);
            let state = words.state()?;
            taking::answer(radius, &state, lengths, &recipe).ok()?
        }
        _ => return None,
    };
    match words.next() {
        None => Some(answer),
        Some(_) => None,
    }
}

/// 0 and the value, or the number alone.
fn one<T: ToString>(result: Result<T, Refusal>) -> String {
    match result {
        Ok(value) => format!("0 {}", value.to_string()),
        Err(refusal) => refusal.number().to_string(),
    }
}

/// 0 and the next state, or the number and the given one.
fn next_text(given: &State, next: Result<State, Refusal>) -> String {
    match next {
        Ok(next) => format!("0 {}", state_text(&next)),
        Err(refusal) => format!("{} {}", refusal.number(), state_text(given)),
    }
}

/// A number that tells the values and their order: 0, and with each value 31 times the number so far and the value.
pub fn sum(values: impl IntoIterator<Item = u32>) -> u32 {
    values.into_iter().fold(0, |sum: u32, value| {
        sum.wrapping_mul(31).wrapping_add(value)
    })
}

/// A run of no bytes is written as a dash.
pub fn hex_or_dash(bytes: &[u8]) -> String {
    if bytes.is_empty() {
        "-".to_string()
    } else {
        text::hex(bytes)
    }
}

pub fn state_text(state: &State) -> String {
    let Service {
        position,
        stage,
        group,
        labels,
    } = &state.service;
    let fields = [
        &state.now[..],
        &state.after,
        &[*position],
        &[*stage],
        group,
        labels.as_flattened(),
    ];
    let Totals {
        taken,
        lost,
        clean,
        mended,
        bad,
    } = &state.totals;
    let numbers = |all: &Numbers| text::hex(&all.map(u32::to_be_bytes).concat());
    let totals = [
        taken.to_string(),
        lost.to_string(),
        numbers(clean),
        numbers(mended),
        numbers(bad),
    ];
    text::spaced(fields.map(text::hex).into_iter().chain(totals))
}

fn near_text(near: Near) -> String {
    let (left, right) = near.factors;
    format!("{left} {right} {}", near.places)
}

fn heard_text(heard: &Heard) -> String {
    let number = if heard.sync == Sync::Neither { 7 } else { 0 };
    let labels = heard.labels.as_ref().map_or(&[][..], |l| l.as_flattened());
    format!("{} {number} {}", heard.position, hex_or_dash(labels))
}

/// The words of a line, one blank between. Each method reads one or more of them, or says None.
struct Words<'a>(Split<'a, char>);

impl<'a> Words<'a> {
    fn next(&mut self) -> Option<&'a str> {
        self.0.next()
    }

    fn array<T, const N: usize>(
        &mut self,
        read: impl Fn(&mut Self) -> Option<T>,
    ) -> Option<[T; N]> {
        let all: Option<Vec<T>> = (0..N).map(|_| read(self)).collect();
        all?.try_into().ok()
    }

    /// A decimal number from `low` to `high`, in the one way of writing it: no `+`, no leading zeros, no `-0`.
    fn number(&mut self, low: i64, high: i64) -> Option<i64> {
        let word = self.next()?;
        let number: i64 = word.parse().ok()?;
        let plain = number.to_string() == word;
        (plain && (low..=high).contains(&number)).then_some(number)
    }

    /// From 0 to 255.
    fn small(&mut self) -> Option<u8> {
        self.number(0, 255).map(|n| n as u8)
    }

    /// From 0 to 4294967295.
    fn large(&mut self) -> Option<u32> {
        self.number(0, i64::from(u32::MAX)).map(|n| n as u32)
    }

    /// Of 16 bits.
    fn signed(&mut self) -> Option<i32> {
        self.number(-32768, 32767).map(|n| n as i32)
    }

    fn letter(&mut self) -> Option<Letter> {
        match self.next()? {
            "a" => Some(Letter::A),
            "b" => Some(Letter::B),
            _ => None,
        }
    }

    /// N digits, each a number of its own from 0 to 9.
    fn digits<const N: usize>(&mut self) -> Option<[u8; N]> {
        let digits: [u8; N] = self.next()?.as_bytes().try_into().ok()?;
        if !digits.iter().all(u8::is_ascii_digit) {
            return None;
        }
        Some(digits.map(|digit| digit - b'0'))
    }

    /// A dash, or up to `MOST_BYTES` bytes.
    fn bytes(&mut self) -> Option<Vec<u8>> {
        match self.next()? {
            "-" => Some(Vec::new()),
            word => bytes_of(word).filter(|bytes| !bytes.is_empty() && bytes.len() <= MOST_BYTES),
        }
    }

    fn bytes_of_length<const N: usize>(&mut self) -> Option<[u8; N]> {
        bytes_of(self.next()?)?.try_into().ok()
    }

    /// A dash, or up to `MOST_SAMPLES` samples; they are the last words of their line.
    fn samples(&mut self) -> Option<Vec<i16>> {
        let mut samples = Vec::new();
        if self.0.clone().eq(["-"]) {
            self.next();
            return Some(samples);
        }
        while self.0.clone().next().is_some() {
            samples.push(self.signed()? as i16);
        }
        let count = samples.len();
        (1..=MOST_SAMPLES).contains(&count).then_some(samples)
    }

    fn state(&mut self) -> Option<State> {
        let now = self.bytes_of_length()?;
        let after = self.bytes_of_length()?;
        let [position] = self.bytes_of_length()?;
        let [stage] = self.bytes_of_length()?;
        let group = self.bytes_of_length()?;
        let all: [u8; CHANNELS * CHARACTERS] = self.bytes_of_length()?;
        let mut labels = [[0; CHARACTERS]; CHANNELS];
        labels.as_flattened_mut().copy_from_slice(&all);
        let service = Service {
            position,
            stage,
            group,
            labels,
        };
        let totals = Totals {
            taken: self.large()?,
            lost: self.large()?,
            clean: self.numbers()?,
            mended: self.numbers()?,
            bad: self.numbers()?,
        };
        Some(State {
            now,
            after,
            service,
            totals,
        })
    }

    /// One number of 32 bits for each programme, the higher byte first.
    fn numbers(&mut self) -> Option<Numbers> {
        let all: [u8; 4 * PROGRAMMES] = self.bytes_of_length()?;
        let number = |p: usize| {
            all[4 * p..][..4]
                .iter()
                .fold(0, |sum, byte| sum << 8 | u32::from(*byte))
        };
        Some(std::array::from_fn(number))
    }

    /// `FACTOR START COUNT`: the sum of the answers for COUNT numbers from START on.
    fn sweep(&mut self, call: impl Fn(i32, u8) -> Result<i32, Refusal>) -> Option<String> {
        let factor = self.small()?;
        let start = self.signed()?;
        let count = self.number(0, MOST_SWEPT.min(32768 - i64::from(start)))? as i32;
        let values = (start..start + count).map(|number| match call(number, factor) {
            Ok(value) => (value + 32768) as u32,
            Err(refusal) => 65536 + u32::from(refusal.number()),
        });
        Some(format!("0 {}", sum(values)))
    }
}

/// Two lower-case hexadecimal digits a byte.
fn bytes_of(word: &str) -> Option<Vec<u8>> {
    let value = |digit: &u8| match digit {
        b'0'..=b'9' => Some(digit - b'0'),
        b'a'..=b'f' => Some(digit - b'a' + 10),
        _ => None,
    };
    if word.len() % 2 != 0 {
        return None;
    }
    let pairs = word.as_bytes().chunks(2);
    pairs
        .map(|pair| Some(16 * value(&pair[0])? + value(&pair[1])?))
        .collect()
}
