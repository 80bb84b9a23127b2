//! Check bits: the long division that both generators share (document 01, "The block" and "Scale words").

use crate::bits::Bit;

/// A generator's coefficients, highest power first, from the powers that the document writes.
/// The highest power comes first in `powers`.
pub fn generator(powers: &[usize]) -> Vec<Bit> {
    (0..=powers[0])
        .rev()
        .map(|power| Bit::from(powers.contains(&power)))
        .collect()
}

/// `bits`, first bit the highest power, times x^degree: the remainder, highest power first.
/// Done as on paper: the zeros are written behind, and the generator is taken away wherever a one leads.
pub fn check_bits(bits: &[Bit], generator: &[Bit]) -> Vec<Bit> {
    let degree = generator.len() - 1;
    let mut rest = bits.to_vec();
    rest.resize(bits.len() + degree, 0);
    for lead in 0..bits.len() {
        if rest[lead] == 1 {
            for (place, coefficient) in generator.iter().enumerate() {
                rest[lead + place] ^= coefficient;
            }
        }
    }
    rest.split_off(bits.len())
}
