//! Call lines that read blocks: with few wrong places and with more, at both radii and at what is none.

use super::{turn, written};
use crate::bits::Bit;
use crate::block::{self, Block};
use crate::radius;
use crate::random::Random;
use crate::text;
use crate::word::{self, PROTECTED};

/// One choice of three places in so many is read at the ordinary radius too, where each is bad.
const STEP: usize = 13;
/// So many blocks have four wrong places, and so many five.
const DRAWN: usize = 2000;

/// The systematic lines.
pub fn all() -> impl Iterator<Item = String> {
    few_places()
        .chain(more_places())
        .chain(bench_blocks())
        .chain(every_radius())
        .chain(out_of_range())
}

pub fn read_line(radius: u8, block: &Block) -> String {
    format!("bread {radius} {}", text::digits(block))
}

fn at_both(block: Block) -> impl Iterator<Item = String> {
    radius::BOTH
        .into_iter()
        .map(move |radius| read_line(radius, &block))
}

fn with_turned(mut block: Block, places: Vec<usize>) -> Block {
    turn(&mut block, places);
    block
}

/// A block as it is written.
fn one() -> Block {
    written(&mut Random::stream(&[0]))
}

/// That block with each choice of at most two of its 63 protected bits turned, at both radii, and of three at the wide one.
fn few_places() -> impl Iterator<Item = String> {
    let block = one();
    let choices = word::choices().into_iter().enumerate();
    choices.flat_map(move |(n, places)| {
        let at = match places.len() {
            3 if n % STEP != 0 => &[radius::WIDE][..],
            _ => &radius::BOTH,
        };
        let block = with_turned(block, places);
        at.iter().map(move |radius| read_line(*radius, &block))
    })
}

/// Blocks with four wrong places, which are bad, and with five, of which some are mended to a word that was not sent.
fn more_places() -> impl Iterator<Item = String> {
    [4, 5].into_iter().flat_map(|wrong| {
        let mut random = Random::stream(&[206, wrong as u64]);
        (0..DRAWN).flat_map(move |_| {
            let block = written(&mut random);
            at_both(with_turned(block, random.places(wrong, PROTECTED)))
        })
    })
}

/// The blocks of document 01's bench cases, the last 14 bits 0.
fn bench_blocks() -> impl Iterator<Item = String> {
    let of = |ones: &[usize]| {
        let mut block = [0; block::LENGTH];
        for one in ones {
            block[one - 1] = 1;
        }
        block
    };
    let blocks = [
        of(&[]),
        of(&(1..=63).collect::<Vec<_>>()),
        of(&[1, 2, 3]),
        of(&[44, 48, 53, 54, 55, 57, 59, 63]),
        of(&[53, 54, 55, 57, 59, 63]),
        of(&(64..=77).collect::<Vec<_>>()),
        [1; block::LENGTH],
        [9; block::LENGTH],
    ];
    blocks.into_iter().flat_map(|block| {
        let codes = format!("bcodes {}", text::digits(&block));
        at_both(block).chain([codes])
    })
}

/// Every radius and every number that is none, with good bits, with three wrong places and with an entry that is no bit.
fn every_radius() -> impl Iterator<Item = String> {
    let good = one();
    let mut no_bit = good;
    no_bit[block::LENGTH - 1] = 2;
    let blocks = [good, with_turned(good, vec![0, 40, 62]), no_bit];
    (0..=255).flat_map(move |radius| blocks.map(|block| read_line(radius, &block)))
}

/// An entry that is no bit at each place, in a block with three wrong places.
fn out_of_range() -> impl Iterator<Item = String> {
    let three = with_turned(one(), vec![5, 6, 7]);
    (0..block::LENGTH).flat_map(move |place| {
        let mut block = three;
        block[place] = (2 + place % 8) as Bit;
        at_both(block)
    })
}

/// Lines whose radius or whose bits are missing, or not of their kind.
pub fn unreadable() -> impl Iterator<Item = String> {
    let good = text::digits(&one());
    let short = &good[1..];
    let lines = [
        "bread".to_string(),
        "bread 2".to_string(),
        "bread 3 0101".to_string(),
        format!("bread {good}"),
        format!("bread {good} 3"),
        format!("bread 2 {good} 0"),
        format!("bread 2 3 {good}"),
        format!("bread 2  {good}"),
        format!("bread 2 {short}"),
        format!("bread 3 {good}0"),
        format!("bread 3 {short}x"),
        format!("bread 256 {good}"),
        format!("bread 258 {good}"),
        format!("bread -1 {good}"),
        format!("bread +3 {good}"),
        format!("bread 03 {good}"),
        format!("bread 3.0 {good}"),
        format!("bread x {good}"),
    ];
    lines.into_iter()
}
