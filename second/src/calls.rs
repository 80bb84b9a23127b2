//! Making call lines: those that can be gone through one by one, and random ones. README.md gives the grammar.

mod blocks;
mod random;
mod scales;
mod superframes;
mod systematic;
mod totals;

use crate::answer::state_text;
use crate::bits::Bit;
use crate::block::{self, Block};
use crate::radius;
use crate::random::Random;
use crate::scale::{self, COPIES};
use crate::service::{Labels, Service, CHANNELS, CHARACTERS};
use crate::superframe::{State, MISSING};
use crate::text;
use crate::totals::MOST;
pub use random::random;
pub use systematic::all;

/// A block as it is written, of random content.
fn written(random: &mut Random) -> Block {
    let noise: Block = random.bits();
    let block = block::content(&noise).and_then(|content| block::write(&content));
    // Bits make a content that can be written; were it not so, noise would do.
    block.unwrap_or(noise)
}

fn turn(bits: &mut [Bit], places: Vec<usize>) {
    for place in places {
        bits[place] ^= 1;
    }
}

/// Scale word `n` of 64, counted from 0, sent three times.
fn sent(n: usize) -> [Bit; COPIES] {
    let (_, word) = &scale::words()[n];
    std::array::from_fn(|place| word[place % word.len()])
}

/// The places of 42 in which two scale words sent three times differ.
fn between(one: usize, other: usize) -> Vec<usize> {
    let (one, other) = (sent(one), sent(other));
    (0..COPIES).filter(|n| one[*n] != other[*n]).collect()
}

/// A scale word sent three times, with `count` of these places turned, at random.
fn part_way(random: &mut Random, one: usize, places: &[usize], count: usize) -> [Bit; COPIES] {
    let picks = random.places(count, places.len());
    let mut copies = sent(one);
    turn(
        &mut copies,
        picks.into_iter().map(|pick| places[pick]).collect(),
    );
    copies
}

/// A state at this position and stage; `zero` leaves the open group's bytes 0. Places that carry nothing
/// hold 0 every second time; the last four of the group and the last of each label never carry anything. The totals are
/// right and not full.
fn state(random: &mut Random, position: u8, stage: u8, zero: bool) -> State {
    let factors = |random: &mut Random| std::array::from_fn(|_| random.below(9) as u8);
    let tidy = random.percent(50);
    let mut group = [0; CHANNELS];
    let gathered = 4 * usize::from(position).saturating_sub(1);
    for (n, byte) in group[..CHANNELS - 4].iter_mut().enumerate() {
        if !zero && n < gathered || !tidy && n >= gathered {
            *byte = random.byte();
        }
    }
    let mut labels: Labels = [[0; CHARACTERS]; CHANNELS];
    let gathered = usize::from(stage).saturating_sub(1);
    for label in &mut labels {
        for (n, character) in label[..CHARACTERS - 1].iter_mut().enumerate() {
            if n < gathered || !tidy {
                *character = random.byte();
            }
        }
    }
    State {
        now: factors(random),
        after: factors(random),
        service: Service {
            position,
            stage,
            group,
            labels,
        },
        totals: {
            let given = random.below(MOST);
            totals::of_given(random, given)
        },
    }
}

/// One time in twenty a number that is none.
fn drawn_radius(random: &mut Random) -> u8 {
    match random.percent(95) {
        true => random.one_of(&radius::BOTH),
        false => random.one_of(&NO_RADII),
    }
}

/// Numbers that are no radius: those around the two, and the edges of the kind of word.
const NO_RADII: [u8; 5] = [0, 1, 4, 5, 255];

/// How many fields of a state have a range.
const FIELDS: u64 = 9;

/// Puts a number that is out of range into one of those fields; any field past them leaves the state alone. A total is too
/// large by as much as the number is out of the range of the others.
fn spoil(state: &mut State, field: u64, channel: usize, wrong: u8) {
    let totals = &mut state.totals;
    let (programme, more) = (channel / 2, u32::from(wrong - MISSING));
    match field {
        0 => state.now[channel] = wrong,
        1 => state.after[channel] = wrong,
        2 => state.service.position = wrong,
        3 => state.service.stage = wrong,
        4 => totals.taken += more,
        5 => totals.lost = MOST as u32 - totals.taken + more,
        6 => totals.clean[programme] += more,
        7 => totals.mended[programme] += more,
        8 => totals.bad[programme] += more,
        _ => {}
    }
}

fn service(state: &State, six: &[u8; 6], sync: &[Bit]) -> String {
    format!(
        "service {} {} {}",
        state_text(state),
        text::hex(six),
        text::digits(sync)
    )
}
