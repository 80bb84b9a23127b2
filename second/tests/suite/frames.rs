//! The 40 bytes of a main frame.

use crate::hand::block_of;
use second::bits;
use second::block::{self, Block};
use second::frame::{self, place, Frame, Letter};
use second::numbers::Refusal;
use second::random::Random;
use second::text;
use second::word::Reading;

const ZERO: [Block; 4] = [[0; 77]; 4];

fn written(letter: Letter, service: u8, blocks: &[Block; 4]) -> [u8; 40] {
    let mut bytes = [0x55; 40];
    assert_eq!(frame::write(letter, service, blocks, &mut bytes), Ok(()));
    bytes
}

fn random_blocks(random: &mut Random) -> [Block; 4] {
    std::array::from_fn(|_| {
        let codes = std::array::from_fn(|_| random.between(-8192, 8191) as i32);
        block_of(codes, random.bits())
    })
}

/// The bytes of frames of zeros: the sync words, and the service bit in A alone.
#[test]
fn first_bytes() {
    let start = |letter, service| text::hex(&written(letter, service, &ZERO)[..3]);
    assert_eq!(start(Letter::A, 0), "e24000");
    assert_eq!(start(Letter::A, 1), "e25000");
    assert_eq!(start(Letter::B, 0), "1da000");
    assert_eq!(start(Letter::B, 1), "1da000");
}

/// The places that document 01 names.
#[test]
fn interleaving() {
    for (block, bit, expected) in [
        (1, 1, 13),
        (2, 1, 14),
        (2, 77, 166),
        (3, 1, 167),
        (4, 77, 320),
    ] {
        assert_eq!(place(block, bit), expected);
        let mut blocks = ZERO;
        blocks[block - 1][bit - 1] = 1;
        let with = bits::of_bytes(&written(Letter::B, 0, &blocks));
        let without = bits::of_bytes(&written(Letter::B, 0, &ZERO));
        let differ: Vec<usize> = (1..=320)
            .filter(|n| with[n - 1] != without[n - 1])
            .collect();
        assert_eq!(differ, [expected]);
    }
    let mut all: Vec<usize> = (1..=4)
        .flat_map(|b| (1..=77).map(move |n| place(b, n)))
        .collect();
    all.sort_unstable();
    assert!(all.into_iter().eq(13..=320));
}

#[test]
fn written_is_read_back() {
    let mut random = Random::stream(&[5]);
    for service in [0, 1] {
        let blocks = random_blocks(&mut random);
        let a = written(Letter::A, service, &blocks);
        let whole = |service| {
            Ok(Frame {
                wrong: 0,
                service,
                blocks,
            })
        };
        assert_eq!(frame::read(Letter::A, &a), whole(service));
        assert_eq!(frame::read(Letter::B, &a), Err(Refusal::Sync));
        let mut b = written(Letter::B, service, &blocks);
        assert_eq!(frame::read(Letter::B, &b), whole(0));
        b[1] |= 0x10;
        assert_eq!(
            frame::read(Letter::B, &b),
            whole(0),
            "bit 12 of B is ignored"
        );
    }
}

/// All 2,048 ways to turn bits of a sync: up to two are taken and told, and nothing is put right.
#[test]
fn sync_with_wrong_bits() {
    let mut random = Random::stream(&[7]);
    for (letter, service) in [(Letter::A, 1), (Letter::B, 0)] {
        let blocks = random_blocks(&mut random);
        let good = bits::of_bytes(&written(letter, service, &blocks));
        for turned in 0..1u32 << 11 {
            let mut bits = good.clone();
            for (n, bit) in bits[..11].iter_mut().enumerate() {
                *bit ^= (turned >> n & 1) as u8;
            }
            let expected = match turned.count_ones() {
                wrong @ 0..=2 => Ok(Frame {
                    wrong: wrong as u8,
                    service,
                    blocks,
                }),
                _ => Err(Refusal::Sync),
            };
            assert_eq!(
                frame::read(letter, &bits::to_bytes(&bits)),
                expected,
                "{turned:011b}"
            );
        }
    }
}

#[test]
fn refusals_in_order_leave_the_buffer() {
    let mut entry = ZERO;
    entry[3][76] = 2;
    for length in [0, 39, 41, 80] {
        let mut lent = vec![0xa5; length];
        assert_eq!(
            frame::write(Letter::A, 2, &entry, &mut lent),
            Err(Refusal::Length)
        );
        assert!(lent.iter().all(|byte| *byte == 0xa5));
        assert_eq!(
            frame::read(Letter::A, &vec![0; length]),
            Err(Refusal::Length)
        );
    }
    for (letter, service, blocks) in [
        (Letter::A, 2, ZERO),
        (Letter::B, 2, ZERO),
        (Letter::A, 0, entry),
    ] {
        let mut lent = [0xa5; 40];
        assert_eq!(
            frame::write(letter, service, &blocks, &mut lent),
            Err(Refusal::Range)
        );
        assert_eq!(lent, [0xa5; 40]);
    }
}

/// A run of at most four wrong bits, at every start: at most two in each block, no block bad,
/// the 44 protected sound bits as sent and the last 14 as received.
#[test]
fn burst_of_four() {
    let mut random = Random::stream(&[6]);
    let sent = random_blocks(&mut random);
    let good = bits::of_bytes(&written(Letter::A, 1, &sent));
    for length in 1..=4 {
        for start in 13..=320 - length + 1 {
            let mut bits = good.clone();
            for bit in &mut bits[start - 1..start - 1 + length] {
                *bit ^= 1;
            }
            let Frame {
                wrong: 0,
                service: 1,
                blocks: received,
            } = frame::read(Letter::A, &bits::to_bytes(&bits)).unwrap()
            else {
                panic!("sync or service bit from bit {start}")
            };
            let mut wrong = 0;
            for (received, sent) in received.iter().zip(&sent) {
                let here = bits::distance(received, sent);
                assert!(here <= 2, "{here} wrong from bit {start}");
                wrong += here;
                let (reading, out) = block::read(2, received).unwrap();
                let protected = bits::distance(&received[..63], &sent[..63]);
                let expected = match protected {
                    0 => Reading::Clean,
                    _ => Reading::Mended(protected),
                };
                assert_eq!(reading, expected);
                assert_eq!(out[..63], sent[..63]);
                assert_eq!(out[63..], received[63..]);
            }
            assert_eq!(wrong, length);
        }
    }
}
