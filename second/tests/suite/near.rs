//! The code word near 63 bits, in numbers of 63 bits: code words are the multiples of the generator.

use second::bits::{self, Bit};
use second::word::Reading;
use std::collections::HashMap;

/// x^19 + x^15 + x^10 + x^9 + x^8 + x^6 + x^4 + 1
const GENERATOR: u64 = 0b1000_1000_0111_0101_0001;

/// What is left of a number when multiples of the generator are taken away from its highest power on.
pub fn left(mut number: u64) -> u64 {
    for power in (19..63).rev() {
        if number >> power & 1 == 1 {
            number ^= GENERATOR << (power - 19);
        }
    }
    number
}

/// The number with a one at one place, counted from 0.
pub fn one(place: usize) -> u64 {
    1 << (62 - place)
}

/// What is left of each place by itself, and the place that leaves it.
pub struct Code {
    single: [u64; 63],
    place: HashMap<u64, usize>,
}

impl Code {
    pub fn new() -> Code {
        let single: [u64; 63] = std::array::from_fn(|place| left(one(place)));
        let place = (0..63).map(|place| (single[place], place)).collect();
        Code { single, place }
    }

    /// The places in which the nearest code word differs, where it is at most three away: all single ones are tried, then one with
    /// another that leaves the rest, then two with a third.
    pub fn places(&self, word: &[Bit]) -> Option<Vec<usize>> {
        let rest = left(bits::to_number(word));
        if rest == 0 {
            return Some(Vec::new());
        }
        let last = |rest: u64| self.place.get(&rest).copied();
        if let Some(a) = last(rest) {
            return Some(vec![a]);
        }
        for a in 0..63 {
            if let Some(b) = last(rest ^ self.single[a]) {
                return Some(vec![a, b]);
            }
        }
        for a in 0..63 {
            for b in a + 1..63 {
                if let Some(c) = last(rest ^ self.single[a] ^ self.single[b]) {
                    return Some(vec![a, b, c]);
                }
            }
        }
        None
    }

    /// The reading at a radius, and the bits that come out.
    pub fn read<const N: usize>(&self, radius: usize, bits: &[Bit; N]) -> (Reading, [Bit; N]) {
        let mut out = *bits;
        match self.places(&bits[..63]) {
            Some(places) if places.len() <= radius => {
                for place in &places {
                    out[*place] ^= 1;
                }
                match places.len() {
                    0 => (Reading::Clean, out),
                    count => (Reading::Mended(count), out),
                }
            }
            _ => (Reading::Bad, out),
        }
    }
}
