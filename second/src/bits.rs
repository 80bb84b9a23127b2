//! Bits as numbers 0 and 1 in a row, the first bit sent first (document 01, "Path of a reel").

/// 0 or 1. Where bits come from outside, any other number may stand in the place and is refused.
pub type Bit = u8;

/// In a byte the first bit sent is the most significant.
pub fn of_bytes(bytes: &[u8]) -> Vec<Bit> {
    let mut bits = Vec::with_capacity(8 * bytes.len());
    for byte in bytes {
        for weight in [128, 64, 32, 16, 8, 4, 2, 1] {
            bits.push(if byte & weight != 0 { 1 } else { 0 });
        }
    }
    bits
}

/// The way back from `of_bytes`; the number of bits is a multiple of eight.
pub fn to_bytes(bits: &[Bit]) -> Vec<u8> {
    bits.chunks(8).map(|eight| to_number(eight) as u8).collect()
}

/// The number whose highest bit is sent first; at most 64 bits.
pub fn to_number(bits: &[Bit]) -> u64 {
    bits.iter()
        .fold(0, |number, bit| 2 * number + u64::from(*bit))
}

/// The lowest `count` bits of `number`, highest first.
pub fn of_number(number: u64, count: usize) -> Vec<Bit> {
    (0..count)
        .rev()
        .map(|power| (number >> power & 1) as Bit)
        .collect()
}

/// A row of digits as the documents print it. Used for their constants.
pub fn of_text(digits: &str) -> Vec<Bit> {
    digits.bytes().map(|digit| digit - b'0').collect()
}

/// The number of places in which two rows of the same length differ.
pub fn distance(one: &[Bit], other: &[Bit]) -> usize {
    one.iter().zip(other).filter(|(a, b)| a != b).count()
}

pub fn all_in_range(bits: &[Bit]) -> bool {
    bits.iter().all(|bit| *bit <= 1)
}
