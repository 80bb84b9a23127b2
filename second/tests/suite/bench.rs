//! Document 01, "Bench cases" and "Errors that look right".

use second::bits;
use second::programme::{self, Programme};
use second::sample;
use second::scale;
use second::word::{self, Reading};

fn check_bits_of(ones: &[usize]) -> String {
    let mut sound = [0; 44];
    for one in ones {
        sound[one - 1] = 1;
    }
    second::text::digits(&word::check_bits(&sound))
}

#[test]
fn check_bits() {
    assert_eq!(check_bits_of(&[]), "0000000000000000000");
    assert_eq!(check_bits_of(&[44]), "0001000011101010001");
    assert_eq!(check_bits_of(&[43]), "0010000111010100010");
}

#[test]
fn far_from_every_code_word() {
    let ones = [1; 63];
    let mut three = [0; 63];
    three[..3].fill(1);
    for word in [ones, three] {
        let mut out = word;
        assert_eq!(word::read(2, &mut out), Reading::Bad);
        assert_eq!(out, word, "as received");
    }
    // The word of zeros is three places away.
    assert_eq!(word::read(3, &mut three), Reading::Mended(3));
    assert_eq!(three, [0; 63]);
}

#[test]
fn two_of_eight_ones_cleared() {
    let mut sent = vec![0; 43];
    sent.extend(bits::of_text("10001000011101010001"));
    assert_eq!(sent.iter().filter(|bit| **bit == 1).count(), 8);
    let mut received = sent.clone();
    received[44 - 1] = 0;
    received[48 - 1] = 0;
    assert_eq!(bits::distance(&sent, &received), 2);
    for radius in [2, 3] {
        let mut out = received.clone();
        assert_eq!(word::read(radius, &mut out), Reading::Mended(2));
        assert_eq!(out, sent);
    }
}

#[test]
fn scale_words() {
    assert_eq!(scale::write((0, 1)), Ok(bits::of_text("00000111010001")));
    assert_eq!(scale::write((0, 2)), Ok(bits::of_text("00001001110011")));
}

#[test]
fn samples() {
    assert_eq!(sample::code_of(-256, 7), Ok(-8192));
    assert_eq!(sample::sample_of(-8192, 7), Ok(-256));
    assert_eq!(sample::code_of(255, 7), Ok(8160));
    assert_eq!(sample::code_of(-1, 0), Ok(-1));
    assert_eq!(sample::sample_of(-1, 0), Ok(-4));
    // Rounded down, never toward zero.
    assert_eq!(sample::sample_of(-1, 7), Ok(-1));
}

#[test]
fn programme_bytes() {
    let byte = |kind, music, mode| programme::write(Programme { kind, music, mode });
    assert_eq!(byte(10, 1, 1), Ok(0b1010_1010));
    assert_eq!(byte(0, 0, 1), Ok(0b0000_0011));
}

#[test]
fn factors() {
    let factor_with = |sample: i16| {
        let mut samples = [0; 64];
        samples[40] = sample;
        sample::factor_of(&samples)
    };
    assert_eq!(factor_with(256), Ok(6));
    assert_eq!(factor_with(-256), Ok(7));
    assert_eq!(factor_with(-257), Ok(6));
    assert_eq!(factor_with(16383), Ok(1));
    assert_eq!(factor_with(16384), Ok(0));
}
