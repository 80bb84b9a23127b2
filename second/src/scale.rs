//! Scale words and the 64 extra bits of a programme (document 01, "Scale words"; document 02, P4).

use crate::bits::{self, Bit};
use crate::division;
use crate::numbers::Refusal;
use std::sync::OnceLock;

pub const WORD: usize = 14;
pub const COPIES: usize = 3 * WORD;
pub const EXTRA: usize = 64;
/// The bits of an information word.
pub const INFORMATION: usize = EXTRA - COPIES;

/// x^8 + x^7 + x^6 + x^4 + 1
const POWERS: [usize; 5] = [8, 7, 6, 4, 0];

/// The left and the right factor of one programme.
pub type Factors = (u8, u8);

/// Three bits of each factor, highest first, then eight check bits.
pub fn write((left, right): Factors) -> Result<Vec<Bit>, Refusal> {
    if left > 7 || right > 7 {
        return Err(Refusal::Range);
    }
    let mut word = bits::of_number(u64::from(8 * left + right), 6);
    let check = division::check_bits(&word, &division::generator(&POWERS));
    word.extend(check);
    Ok(word)
}

/// All 64 scale words with their factors.
pub fn words() -> &'static [(Factors, Vec<Bit>)] {
    static WORDS: OnceLock<Vec<(Factors, Vec<Bit>)>> = OnceLock::new();
    WORDS.get_or_init(|| {
        let all = (0..64).map(|n| (n / 8, n % 8));
        all.filter_map(|factors| Some((factors, write(factors).ok()?)))
            .collect()
    })
}

/// The factors that 42 bits say.
#[derive(Clone, Copy, Debug, PartialEq, Eq)]
pub struct Near {
    pub factors: Factors,
    /// In how many of the 42 places the bits differ from their scale word sent three times.
    pub places: u8,
}

/// In how many of 42 places the copies differ from a scale word sent three times.
fn differing(copies: &[Bit; COPIES], word: &[Bit]) -> usize {
    let copies = copies.chunks(WORD);
    copies.map(|copy| bits::distance(copy, word)).sum()
}

/// Of the 64 scale words sent three times, the one that differs from 42 bits in the fewest places (document 02,
/// P4). Number 5 where several do.
pub fn read(copies: &[Bit; COPIES]) -> Result<Near, Refusal> {
    if !bits::all_in_range(copies) {
        return Err(Refusal::Range);
    }
    let all: Vec<Near> = words()
        .iter()
        .map(|(factors, word)| Near {
            factors: *factors,
            places: differing(copies, word) as u8,
        })
        .collect();
    let fewest = all.iter().map(|near| near.places).min();
    let nearest: Vec<&Near> = all
        .iter()
        .filter(|near| Some(near.places) == fewest)
        .collect();
    match nearest[..] {
        [one] => Ok(*one),
        _ => Err(Refusal::ScaleWord),
    }
}

/// What the extra bits of one programme over 64 main frames say. The information word comes
/// whether or not a scale word could be read; its first bit is the highest.
#[derive(Clone, Copy, Debug, PartialEq, Eq)]
pub struct Extra {
    /// None for number 5.
    pub near: Option<Near>,
    pub information: u32,
}

pub fn read_extra(extra: &[Bit; EXTRA]) -> Result<Extra, Refusal> {
    if !bits::all_in_range(extra) {
        return Err(Refusal::Range);
    }
    let mut copies = [0; COPIES];
    copies.copy_from_slice(&extra[..COPIES]);
    Ok(Extra {
        near: read(&copies).ok(),
        information: bits::to_number(&extra[COPIES..]) as u32,
    })
}
