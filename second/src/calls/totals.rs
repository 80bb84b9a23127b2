//! Totals of states in call lines: right ones of any history, those at the edges, and wrong ones.

use super::{service, spoil, state, FIELDS};
use crate::answer::state_text;
use crate::bits;
use crate::random::Random;
use crate::service::{CHANNELS, SYNC_1};
use crate::superframe::{State, FRAMES, MISSING, PROGRAMMES};
use crate::totals::{Numbers, Totals, MOST};
use std::collections::BTreeSet;

const ALL: u32 = MOST as u32;

/// The totals of so many superframes given, any number of them lost.
pub fn of_given(random: &mut Random, given: u64) -> Totals {
    let taken = random.below(given + 1) as u32;
    history(random, taken, given as u32 - taken)
}

/// Totals whose sums are right; every programme has numbers of its own.
fn history(random: &mut Random, taken: u32, lost: u32) -> Totals {
    let mut totals = Totals {
        taken,
        lost,
        ..Totals::default()
    };
    for p in 0..PROGRAMMES {
        let blocks = FRAMES as u64 * u64::from(taken);
        let clean = random.below(blocks + 1);
        let mended = random.below(blocks - clean + 1);
        totals.clean[p] = clean as u32;
        totals.mended[p] = mended as u32;
        totals.bad[p] = (blocks - clean - mended) as u32;
    }
    totals
}

/// The totals at every edge, in range and out of it.
pub fn edges() -> Vec<Totals> {
    [around_full(), one_off(), wrapped(), full_and_off()].concat()
}

/// None and one given; and one less than there can be, as many, and one more: all of them taken, all lost, and both.
fn around_full() -> Vec<Totals> {
    let mut random = Random::stream(&[204]);
    let mut all = Vec::new();
    for given in [0, 1, ALL - 1, ALL, ALL + 1] {
        let parts = BTreeSet::from([0, given.min(1), given / 2, given]);
        for taken in parts {
            all.push(history(&mut random, taken, given - taken));
        }
    }
    all
}

/// The numbers of a kind: clean, mended, bad.
fn kind(totals: &mut Totals, n: usize) -> &mut Numbers {
    match n {
        0 => &mut totals.clean,
        1 => &mut totals.mended,
        _ => &mut totals.bad,
    }
}

/// Right totals, no number of which is 0.
fn right() -> Totals {
    let taken = 4000;
    let mut totals = Totals {
        taken,
        lost: 77,
        ..Totals::default()
    };
    for p in 0..PROGRAMMES {
        totals.mended[p] = 2000 + 3 * p as u32;
        totals.bad[p] = 300 + p as u32;
        totals.clean[p] = FRAMES as u32 * taken - totals.mended[p] - totals.bad[p];
    }
    totals
}

/// One block too many and one too few of each kind, in the first programme, in one of the middle and in the last; in one too many and in
/// another too few; 64 too many; one superframe too many and one too few.
fn one_off() -> Vec<Totals> {
    let mut all = Vec::new();
    for n in 0..3 {
        for p in [0, 7, 15] {
            let (mut more, mut less) = (right(), right());
            kind(&mut more, n)[p] += 1;
            kind(&mut less, n)[p] -= 1;
            all.extend([more, less]);
        }
    }
    let mut even = right();
    even.clean[3] += 1;
    even.clean[4] -= 1;
    let mut whole = right();
    whole.mended[9] += FRAMES as u32;
    let (mut more, mut less) = (right(), right());
    more.taken += 1;
    less.taken -= 1;
    all.extend([even, whole, more, less]);
    all
}

/// Totals that would be right were sums cut off at 32 bits.
fn wrapped() -> Vec<Totals> {
    let blocks = FRAMES as u32 * right().taken;
    let mut all = Vec::new();
    for n in 0..3 {
        for p in [0, 15] {
            let mut totals = right();
            kind(&mut totals, n)[p] = u32::MAX;
            kind(&mut totals, (n + 1) % 3)[p] = blocks + 1;
            kind(&mut totals, (n + 2) % 3)[p] = 0;
            all.push(totals);
        }
    }
    let mut twice = right();
    (twice.clean[5], twice.mended[5], twice.bad[5]) = (u32::MAX, u32::MAX, blocks + 2);
    all.push(twice);
    // 64 times so many superframes are 2^32 blocks.
    let turn = 1 << 26;
    let superframes = |taken: u32, lost: u32| Totals {
        taken,
        lost,
        ..right()
    };
    let none = |taken: u32, lost: u32| Totals {
        taken,
        lost,
        ..Totals::default()
    };
    let taken = right().taken;
    all.extend([
        superframes(taken + turn, 0),
        superframes(taken + turn, 0u32.wrapping_sub(turn)),
        superframes(taken, 0u32.wrapping_sub(taken)),
        superframes(taken, 7u32.wrapping_sub(taken)),
        superframes(taken, u32::MAX),
        none(turn, 0),
        none(0, u32::MAX),
        none(turn, ALL.wrapping_sub(turn)),
        none(0u32.wrapping_sub(turn), turn),
    ]);
    all
}

/// As many superframes as there can be, and a block too many.
fn full_and_off() -> Vec<Totals> {
    let each = (0..3).map(|n| {
        let mut totals = right();
        totals.lost = ALL - totals.taken;
        kind(&mut totals, n)[2 + 5 * n] += 1;
        totals
    });
    each.collect()
}

/// What is asked of a state without a superframe.
pub fn asked_of(state: &State) -> [String; 3] {
    [
        format!("lose {}", state_text(state)),
        format!("reset {}", state_text(state)),
        service(state, &[1, 2, 3, 4, 5, 6], &bits::of_text(SYNC_1)),
    ]
}

/// States with the totals of every edge, and states with each field out of range; the service bytes bring labels.
pub fn all() -> impl Iterator<Item = String> {
    let mut random = Random::stream(&[205]);
    let mut states = Vec::new();
    for totals in edges() {
        states.push(State {
            totals,
            ..state(&mut random, 8, 8, false)
        });
    }
    for field in 0..=FIELDS {
        let mut state = state(&mut random, 8, 8, false);
        spoil(&mut state, field, CHANNELS - 1, MISSING + 1);
        states.push(state);
    }
    states.into_iter().flat_map(|state| asked_of(&state))
}
