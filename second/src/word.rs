//! The protected 63 bits: 44 sound bits and 19 check bits (document 01, "The block"; document 02, P9).

use crate::bits::{self, Bit};
use crate::division;
use crate::radius;
use std::collections::HashMap;
use std::sync::OnceLock;

pub const SOUND: usize = 44;
pub const CHECK: usize = 19;
pub const PROTECTED: usize = SOUND + CHECK;

/// x^19 + x^15 + x^10 + x^9 + x^8 + x^6 + x^4 + 1
const POWERS: [usize; 8] = [19, 15, 10, 9, 8, 6, 4, 0];

#[derive(Clone, Copy, Debug, PartialEq, Eq)]
pub enum Reading {
    Clean,
    /// The number of places turned, from 1 to the radius.
    Mended(usize),
    Bad,
}

/// The 19 check bits of 44 sound bits.
pub fn check_bits(sound: &[Bit]) -> Vec<Bit> {
    division::check_bits(sound, &division::generator(&POWERS))
}

/// What the reader looks up, worked out once.
struct Tables {
    /// For each of the 63 places the remainder that a one in it alone leaves.
    remainder: [usize; PROTECTED],
    /// For each remainder the places to turn that leave it: 0 is left by none. No two choices of at most three places
    /// leave the same remainder, since code words differ in at least 8.
    turn: HashMap<usize, Vec<usize>>,
}

fn tables() -> &'static Tables {
    static TABLES: OnceLock<Tables> = OnceLock::new();
    TABLES.get_or_init(|| {
        let mut remainder = [0; PROTECTED];
        for (place, left) in remainder.iter_mut().enumerate() {
            // A one among the check bits is its own remainder.
            *left = if place < SOUND {
                let mut sound = [0; SOUND];
                sound[place] = 1;
                bits::to_number(&check_bits(&sound)) as usize
            } else {
                1 << (PROTECTED - 1 - place)
            };
        }
        let left =
            |places: &Vec<usize>| places.iter().fold(0, |sum, place| sum ^ remainder[*place]);
        let turn = choices().into_iter().map(|places| (left(&places), places));
        Tables {
            remainder,
            turn: turn.collect(),
        }
    })
}

/// Every choice of at most three of the 63 places, counted from 0: none, each one, each two, each three.
pub fn choices() -> Vec<Vec<usize>> {
    let mut all = vec![Vec::new()];
    let mut longest = 0;
    for _ in 0..radius::WIDE {
        let mut longer = Vec::new();
        for choice in &all[longest..] {
            let next = choice.last().map_or(0, |place| place + 1);
            longer.extend((next..PROTECTED).map(|place| [&choice[..], &[place]].concat()));
        }
        longest = all.len();
        all.extend(longer);
    }
    all
}

/// Reads the 63 bits in place: clean where they are a code word, mended to the code word at most `radius`
/// places away, else bad and as received (mission, demand 2).
pub fn read(radius: u8, word: &mut [Bit]) -> Reading {
    let tables = tables();
    let mut left = 0;
    for (bit, remainder) in word.iter().zip(&tables.remainder) {
        if *bit == 1 {
            left ^= remainder;
        }
    }
    match tables.turn.get(&left) {
        Some(places) if places.len() <= usize::from(radius) => {
            for place in places {
                word[*place] ^= 1;
            }
            match places.len() {
                0 => Reading::Clean,
                turned => Reading::Mended(turned),
            }
        }
        _ => Reading::Bad,
    }
}
