//! The 77 bits of a block.

use crate::hand::block_of;
use second::block::{self, Block, Content};
use second::numbers::Refusal;
use second::random::Random;
use second::word::Reading;

fn ones(block: &Block) -> Vec<usize> {
    (1..=77).filter(|place| block[place - 1] == 1).collect()
}

/// Where each bit of each channel stands, counted from 1, check bits left out.
#[test]
fn places_of_the_77_bits() {
    let sound_places = |codes| {
        let places = ones(&block_of(codes, [0, 0]));
        let sound = |place: &usize| !(45..=63).contains(place);
        places.into_iter().filter(sound).collect::<Vec<_>>()
    };
    for channel in 0..4 {
        for power in 0..14 {
            let mut codes = [0; 4];
            codes[channel] = if power == 13 { -8192 } else { 1 << power };
            let place = match power {
                0..=2 => 64 + 3 * channel + 2 - power,
                _ => 1 + 11 * channel + 13 - power,
            };
            assert_eq!(
                sound_places(codes),
                [place],
                "channel {channel} power {power}"
            );
        }
    }
    assert_eq!(ones(&block_of([0; 4], [1, 0])), [76]);
    assert_eq!(ones(&block_of([0; 4], [0, 1])), [77]);
}

/// Check bits 45 to 63 behind sound bit 44.
#[test]
fn check_bits_stand_at_45() {
    let block = block_of([0, 0, 0, 8], [0, 0]);
    assert_eq!(ones(&block), [44, 48, 53, 54, 55, 57, 59, 63]);
}

#[test]
fn written_is_read_back() {
    let mut random = Random::stream(&[4]);
    for _ in 0..200 {
        let codes = std::array::from_fn(|_| random.between(-8192, 8191) as i32);
        let content = Content {
            codes,
            extra: random.bits(),
        };
        let block = block::write(&content).unwrap();
        for radius in [2, 3] {
            assert_eq!(block::read(radius, &block), Ok((Reading::Clean, block)));
        }
        assert_eq!(block::content(&block), Ok(content));
    }
    for code in [-8192, -1, 0, 8191] {
        let content = Content {
            codes: [code; 4],
            extra: [1, 0],
        };
        let block = block::write(&content).unwrap();
        assert_eq!(block::content(&block), Ok(content));
    }
}

/// Wrong low and extra bits pass unchanged and never change the reading.
#[test]
fn unprotected_bits_pass() {
    let sent = block_of([1, -2, 3000, -4000], [1, 0]);
    for (radius, wrong) in [2, 3].into_iter().flat_map(|r| (0..5).map(move |n| (r, n))) {
        let mut received = sent;
        for place in [5, 50, 62, 30].into_iter().take(wrong) {
            received[place] ^= 1;
        }
        for bit in &mut received[63..] {
            *bit ^= 1;
        }
        let (reading, out) = block::read(radius, &received).unwrap();
        assert_eq!(out[63..], received[63..]);
        let (expected, protected) = match wrong {
            0 => (Reading::Clean, &sent[..63]),
            _ if wrong > usize::from(radius) => (Reading::Bad, &received[..63]),
            _ => (Reading::Mended(wrong), &sent[..63]),
        };
        assert_eq!(reading, expected);
        assert_eq!(&out[..63], protected);
    }
}

/// Document 02, P9: any radius but 2 and 3 is refused, whatever the bits are.
#[test]
fn radius_out_of_range() {
    let good = block_of([7, 8, 9, -10], [0, 1]);
    let mut bad = good;
    for place in [1, 2, 3, 4] {
        bad[place] ^= 1;
    }
    let mut no_bit = good;
    no_bit[76] = 2;
    for radius in 0..=255 {
        let right = radius == 2 || radius == 3;
        for block in [good, bad] {
            let read = block::read(radius, &block);
            assert_eq!(read.is_ok(), right, "radius {radius}");
            assert!(right || read == Err(Refusal::Range));
        }
        assert_eq!(block::read(radius, &no_bit), Err(Refusal::Range));
    }
}

#[test]
fn out_of_range() {
    for place in 0..77 {
        for entry in [2, 9, 255] {
            let mut block = [0; 77];
            block[place] = entry;
            for radius in [2, 3] {
                assert_eq!(block::read(radius, &block), Err(Refusal::Range));
            }
            assert_eq!(block::content(&block), Err(Refusal::Range));
        }
    }
    for channel in 0..4 {
        for code in [-8193, 8192, -32768, 32767, 16384] {
            let mut codes = [0; 4];
            codes[channel] = code;
            let content = Content {
                codes,
                extra: [0, 0],
            };
            assert_eq!(block::write(&content), Err(Refusal::Range));
        }
    }
    for extra in [[2, 0], [0, 2], [255, 1]] {
        let content = Content {
            codes: [0; 4],
            extra,
        };
        assert_eq!(block::write(&content), Err(Refusal::Range));
    }
}
