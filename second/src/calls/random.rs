//! Random call lines: good, at the edges, damaged and out of range.

use super::{
    between, blocks, drawn_radius, part_way, sent, service, spoil, state, superframes, totals,
    turn, written, FIELDS,
};
use crate::answer::{hex_or_dash, state_text, MOST_BYTES, MOST_RUN, MOST_SAMPLES, MOST_SWEPT};
use crate::bits::{self, Bit};
use crate::block::Block;
use crate::frame::{self, Letter};
use crate::random::Random;
use crate::reel;
use crate::scale::{COPIES, EXTRA, WORD};
use crate::service::{CHANNELS, SYNC_1, SYNC_2};
use crate::superframe::{self, State, MISSING};
use crate::text;
use crate::totals::MOST;
use crate::word::PROTECTED;

/// `count` random lines.
pub fn random(seed: u64, count: u64) -> impl Iterator<Item = String> {
    let mut random = Random::stream(&[seed, 201]);
    let hat = KINDS.map(|(times, kind)| vec![kind; times]).concat();
    (0..count).map(move |_| random.one_of(&hat)(&mut random))
}

type Kind = fn(&mut Random) -> String;

/// How often each kind of line comes; taking a superframe is the longest work by far.
const KINDS: [(usize, Kind); 18] = [
    (9, block_write),
    (18, block_read),
    (6, block_codes),
    (9, frame_write),
    (9, frame_read),
    (3, code),
    (3, sample),
    (3, sweep),
    (6, factor_of_samples),
    (3, scale_write),
    (6, scale_read),
    (6, extra_read),
    (3, programme_read),
    (3, programme_write),
    (3, header),
    (3, run),
    (27, state_call),
    (1, take),
];

fn block_codes(random: &mut Random) -> String {
    let block: Block = random.bits();
    format!("bcodes {}", text::digits(&spoilt(block, random)))
}

fn code(random: &mut Random) -> String {
    format!("code {} {}", edged(random, 32768), factor(random))
}

fn sample(random: &mut Random) -> String {
    format!("sample {} {}", edged(random, 8192), factor(random))
}

fn sweep(random: &mut Random) -> String {
    let name = random.one_of(&["codes", "samples"]);
    let start = edged(random, 32768);
    let count = random.between(0, MOST_SWEPT.min(32768 - start) / 16);
    format!("{name} {} {start} {count}", factor(random))
}

fn scale_write(random: &mut Random) -> String {
    format!("swrite {} {}", factor(random), factor(random))
}

fn scale_read(random: &mut Random) -> String {
    let copies = copies(random);
    format!("sread {}", text::digits(&spoilt(copies, random)))
}

fn extra_read(random: &mut Random) -> String {
    let mut extra: [Bit; EXTRA] = random.bits();
    extra[..COPIES].copy_from_slice(&copies(random));
    format!("sextra {}", text::digits(&spoilt(extra, random)))
}

fn programme_read(random: &mut Random) -> String {
    format!("pread {}", random.byte())
}

fn programme_write(random: &mut Random) -> String {
    let mut mostly_to = |most| match random.percent(90) {
        true => random.between(0, most),
        false => random.between(0, 255),
    };
    format!("pwrite {} {} {}", mostly_to(15), mostly_to(1), mostly_to(3))
}

fn run(random: &mut Random) -> String {
    let whole = superframe::BYTES as i64 * random.between(0, 4);
    let length = match random.bit() {
        0 => whole,
        _ => random.between(0, MOST_RUN),
    };
    match random.bit() {
        0 => format!("run {length}"),
        _ => format!("part {length} {}", random.below(6)),
    }
}

fn state_call(random: &mut Random) -> String {
    match random.below(10) {
        0 | 1 => format!("lose {}", state_text(&random_state(random))),
        2 => format!("reset {}", state_text(&random_state(random))),
        _ => random_service(random),
    }
}

/// Mostly within -limit .. limit - 1, often at the very edge, and sometimes, as far as 16 bits go, outside.
fn edged(random: &mut Random, limit: i64) -> i64 {
    let x = match random.below(8) {
        0 => random.one_of(&[-1, 0, 1]),
        1 => random.one_of(&[-limit - 1, -limit, limit - 1, limit]),
        2 => {
            let edge = 1 << random.below(15);
            random.one_of(&[-edge - 1, -edge, edge - 1, edge])
        }
        3 => random.between(-32768, 32767),
        _ => random.between(-limit, limit - 1),
    };
    x.clamp(-32768, 32767)
}

fn factor(random: &mut Random) -> u8 {
    match random.below(10) {
        0 => random.one_of(&[8, 9, 15, 255]),
        _ => random.below(8) as u8,
    }
}

/// One time in ten an entry that is no bit.
fn spoilt<const N: usize>(mut bits: [Bit; N], random: &mut Random) -> [Bit; N] {
    if random.percent(10) {
        bits[random.index(N)] = random.between(2, 9) as u8;
    }
    bits
}

/// A written block with 0 to 8 wrong places, and every second time wrong unprotected bits.
fn damaged(random: &mut Random) -> Block {
    let mut block = written(random);
    let count = random.index(9);
    turn(&mut block, random.places(count, PROTECTED));
    if random.percent(50) {
        let count = random.index(15);
        turn(&mut block[PROTECTED..], random.places(count, 14));
    }
    block
}

fn block_write(random: &mut Random) -> String {
    let wild = random.percent(20);
    let codes: [i64; 4] = std::array::from_fn(|_| match wild {
        true => edged(random, 8192),
        false => random.between(-8192, 8191),
    });
    let extra: [u8; 2] = std::array::from_fn(|_| match random.percent(95) {
        true => random.bit(),
        false => random.one_of(&[2, 3, 255]),
    });
    format!("bwrite {} {}", text::spaced(codes), text::spaced(extra))
}

fn block_read(random: &mut Random) -> String {
    let block = match random.percent(95) {
        true => damaged(random),
        false => random.bits(),
    };
    blocks::read_line(drawn_radius(random), &spoilt(block, random))
}

/// Four blocks, each as `damaged` gives them.
fn four(random: &mut Random) -> [Block; 4] {
    std::array::from_fn(|_| damaged(random))
}

fn letter(random: &mut Random) -> (Letter, char) {
    random.one_of(&[(Letter::A, 'a'), (Letter::B, 'b')])
}

fn length_near(random: &mut Random, right: usize) -> usize {
    match random.below(10) {
        0 => random.one_of(&[0, 1, right - 1, right + 1, MOST_BYTES]),
        1 => random.index(MOST_BYTES + 1),
        _ => right,
    }
}

fn frame_write(random: &mut Random) -> String {
    let (_, letter) = letter(random);
    let service = match random.percent(95) {
        true => random.bit(),
        false => random.one_of(&[2, 255]),
    };
    let mut blocks = four(random);
    if random.percent(20) {
        let block = random.index(4);
        blocks[block] = spoilt(blocks[block], random);
    }
    let blocks = text::spaced(blocks.iter().map(|block| text::digits(block)));
    let length = length_near(random, frame::BYTES);
    format!(
        "fwrite {letter} {service} {blocks} {length} {}",
        random.byte()
    )
}

fn frame_read(random: &mut Random) -> String {
    let (sent, name) = letter(random);
    let mut bits = frame::bits_of(sent, random.bit(), &four(random));
    match random.below(10) {
        0 => turn(&mut bits, random.places(1, frame::SYNC)),
        1 => {
            let count = random.index(frame::SYNC) + 1;
            turn(&mut bits, random.places(count, frame::SYNC));
        }
        // In B bit 12 is ignored.
        2 => bits[frame::SERVICE] = 1,
        3 => bits = random.bits::<{ frame::BITS }>().to_vec(),
        _ => {}
    }
    let mut bytes = bits::to_bytes(&bits);
    bytes.resize(length_near(random, frame::BYTES), 0xe2);
    // One time in twenty the other letter is asked for.
    let name = match random.percent(90) {
        true => name,
        false => letter(random).1,
    };
    format!("fread {name} {}", hex_or_dash(&bytes))
}

fn factor_of_samples(random: &mut Random) -> String {
    let count = match random.below(10) {
        0 => random.one_of(&[0, 1, 63, 65, MOST_SAMPLES]),
        _ => 64,
    };
    if count == 0 {
        return "factor -".to_string();
    }
    let limit = 1 << (15 - random.below(8));
    let mut samples: Vec<i64> = (0..count)
        .map(|_| random.between(-limit, limit - 1))
        .collect();
    if random.percent(50) {
        samples[random.index(count)] = edged(random, limit);
    }
    format!("factor {}", text::spaced(samples))
}

/// Three copies of a scale word: noise altogether, with one copy of noise, with two copies wrong at few places, about
/// as far from it as from another, or with up to half of the 42 places wrong.
fn copies(random: &mut Random) -> [Bit; COPIES] {
    let word = random.index(64);
    let mut copies = sent(word);
    match random.below(7) {
        0 => copies = random.bits(),
        1 => {
            let copy = random.index(3);
            copies[WORD * copy..][..WORD].copy_from_slice(&random.bits::<WORD>());
        }
        2 => {
            let count = random.index(5);
            for place in random.places(count, WORD) {
                let two = random.places(2, 3);
                turn(
                    &mut copies,
                    two.into_iter().map(|copy| WORD * copy + place).collect(),
                );
            }
        }
        3 => {
            let places = between(word, random.index(64));
            let count = places.len() / 2 + random.index(2);
            copies = part_way(random, word, &places, count);
        }
        _ => {
            let count = random.index(COPIES / 2 + 1);
            turn(&mut copies, random.places(count, COPIES));
        }
    }
    copies
}

fn header(random: &mut Random) -> String {
    let mut field = |right: u32, percent| match random.percent(percent) {
        true => right,
        false => random.between(0, i64::from(u32::MAX)) as u32 >> random.below(32),
    };
    let fields = [field(1000, 20), field(16, 70), field(0, 90), field(0, 90)];
    let mut bytes = fields.map(u32::to_be_bytes).concat();
    bytes.resize(length_near(random, reel::HEADER), 0);
    format!("header {}", hex_or_dash(&bytes))
}

/// One time in five out of range. The totals are mostly of any history, else of none or few superframes, of as many as there can be or
/// of one less.
fn random_state(random: &mut Random) -> State {
    let position = random.one_of(&[0, 1, 2, 3, 4, 5, 6, 7, 8, 8, 8, 8]);
    let stage = random.one_of(&[0, 0, 0, 1, 2, 3, 4, 5, 6, 7, 8, 8]);
    let zero = random.percent(40);
    let mut state = state(random, position, stage, zero);
    let few = random.below(100);
    let edge = [0, few, MOST - 1, MOST, MOST];
    if let Some(given) = edge.get(random.index(20)) {
        state.totals = totals::of_given(random, *given);
    }
    let wrong = random.one_of(&[MISSING + 1, 10, 127, 128, 255]);
    let field = random.below(5 * FIELDS);
    spoil(&mut state, field, random.index(CHANNELS), wrong);
    state
}

/// Six bytes, every second time of an empty group, and a sync, one time in five damaged.
fn service_bits(random: &mut Random) -> ([u8; 6], Vec<Bit>) {
    let mut six: [u8; 6] = random.bytes();
    if random.percent(50) {
        six[..4].fill(0);
        if random.percent(20) {
            six[random.index(4)] = 1;
        }
    }
    let mut sync = bits::of_text(random.one_of(&[SYNC_1, SYNC_2]));
    match random.below(10) {
        0 => turn(&mut sync, random.places(1, 16)),
        1 => sync = random.bits::<16>().to_vec(),
        _ => {}
    }
    (six, sync)
}

fn random_service(random: &mut Random) -> String {
    let state = random_state(random);
    let (six, sync) = service_bits(random);
    service(&state, &six, &sync)
}

fn take(random: &mut Random) -> String {
    let state = random_state(random);
    let (six, sync) = service_bits(random);
    superframes::random(random, state, six, &sync)
}
