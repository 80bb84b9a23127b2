//! The WAV files of a programme: their headers and their values, byte by byte.

use crate::hand::unspaced;
use second::hand_on::wav::{header, mark_bytes, sound_bytes, Track, MARKS, SOUND};
use std::io::Cursor;

/// RIFF, its size, WAVE; fmt, 16, PCM, two channels, 32,000, bytes a second, of a pair, bits; data, its size.
const NO_SOUND: &str = "52494646 24000000 57415645 \
    666d7420 10000000 0100 0200 007d0000 00f40100 0400 1000 64617461 00000000";
const THREE_SOUND: &str = "52494646 30000000 57415645 \
    666d7420 10000000 0100 0200 007d0000 00f40100 0400 1000 64617461 0c000000";
const NO_MARKS: &str = "52494646 24000000 57415645 \
    666d7420 10000000 0100 0200 007d0000 00fa0000 0200 0800 64617461 00000000";
const THREE_MARKS: &str = "52494646 2a000000 57415645 \
    666d7420 10000000 0100 0200 007d0000 00fa0000 0200 0800 64617461 06000000";

#[test]
fn headers() {
    assert_eq!(header(SOUND, 0), unspaced(NO_SOUND));
    assert_eq!(header(SOUND, 3), unspaced(THREE_SOUND));
    assert_eq!(header(MARKS, 0), unspaced(NO_MARKS));
    assert_eq!(header(MARKS, 3), unspaced(THREE_MARKS));
    for bits in [SOUND, MARKS] {
        assert_eq!(header(bits, 0).len(), 44);
    }
}

/// The longest reel: 64,000,000 pairs are 256,000,000 bytes of sound, 0x0f424000, and half of that of marks.
#[test]
fn header_of_the_longest_reel() {
    let sound = header(SOUND, 64_000_000);
    assert_eq!(sound[40..], unspaced("0040420f"));
    assert_eq!(sound[4..8], unspaced("2440420f"));
    let marks = header(MARKS, 64_000_000);
    assert_eq!(marks[40..], unspaced("0020a107"));
    assert_eq!(marks[4..8], unspaced("2420a107"));
}

#[test]
fn left_before_right_and_the_lower_byte_first() {
    assert_eq!(sound_bytes([1, -2]), [0x01, 0x00, 0xfe, 0xff]);
    assert_eq!(sound_bytes([256, -32768]), [0x00, 0x01, 0x00, 0x80]);
    assert_eq!(sound_bytes([32767, 0]), [0xff, 0x7f, 0x00, 0x00]);
    for sample in i16::MIN..=i16::MAX {
        let [a, b, c, d] = sound_bytes([sample, !sample]).map(i32::from);
        let of = |low: i32, high: i32| (low + 256 * high + 32768) % 65536 - 32768;
        assert_eq!((of(a, b), of(c, d)), (sample.into(), (!sample).into()));
    }
}

#[test]
fn heights_of_marks() {
    assert_eq!(mark_bytes([0, 1]), [128, 144]);
    assert_eq!(mark_bytes([2, 3]), [160, 176]);
    assert_eq!(mark_bytes([4, 0]), [192, 128]);
}

/// The number of pairs is written into the header when the last one has come.
#[test]
fn header_put_right_at_the_end() {
    let none = Track::start(MARKS, Cursor::new(Vec::new())).unwrap();
    assert_eq!(none.finish().unwrap().into_inner(), unspaced(NO_MARKS));
    let mut three = Track::start(SOUND, Cursor::new(Vec::new())).unwrap();
    for pair in [[1, -2], [256, -32768], [32767, 0]] {
        three.put(&sound_bytes(pair)).unwrap();
    }
    let whole = format!("{THREE_SOUND} 0100feff 00010080 ff7f0000");
    assert_eq!(three.finish().unwrap().into_inner(), unspaced(&whole));
}
