//! Reel files, the listing, the transcript, and the reels that are made.

use crate::hand::{header, listing, make, reel, transcript, transcript_at, Superframe, NEITHER};
use second::make::Order;
use second::numbers::Refusal;
use second::reel::{read_header, run_count, start_of, Header};
use std::io::{self, Read};

/// The listing of a reel whose superframes are all clean.
fn all_clean(superframes: u64, lost: u64, end: &str) -> String {
    let clean = 512 * (superframes - lost);
    format!("superframes {superframes}\nlost {lost}\nsync 0\nclean {clean}\nmended 0\nbad 0\nend {end}\n")
}

/// Document 01's own case as document 02 amends it: three wrong bits in a sync of the second, from every place of some of them on.
#[test]
fn listing_of_document_01() {
    let expected = "superframes 2\nlost 1\nsync 0\nclean 512\nmended 0\nbad 0\nend ok\n";
    let good = Superframe::zero().bytes();
    for first in 0..9 {
        for frame in [0, 63, 64, 127] {
            let wrong = with_turned(&good, (first..first + 3).map(|bit| (frame, bit)));
            assert_eq!(listing(&reel(&[good.clone(), wrong])), expected);
        }
    }
    assert_eq!(listing(&make("1 2 sync=3@2")), expected);
}

/// Bits of syncs turned, each by its main frame and its place, both from 0.
fn with_turned(bytes: &[u8], bits: impl Iterator<Item = (usize, usize)>) -> Vec<u8> {
    let mut bytes = bytes.to_vec();
    for (frame, bit) in bits {
        bytes[40 * frame + bit / 8] ^= 0x80 >> (bit % 8);
    }
    bytes
}

/// Wrong bits of syncs, up to two in each, are added over the superframes that are not lost.
#[test]
fn wrong_sync_bits_are_counted() {
    let good = Superframe::zero().bytes();
    let sum = |bytes: &[u8]| {
        let text = listing(&reel(&[good.clone(), bytes.to_vec(), good.clone()]));
        let numbers = text.lines().map(|line| line.split(' ').nth(1).unwrap());
        numbers.map(str::to_string).collect::<Vec<_>>()[1..3].join(" ")
    };
    for bit in 0..11 {
        for frame in [0, 63, 64, 127] {
            assert_eq!(sum(&with_turned(&good, [(frame, bit)].into_iter())), "0 1");
            let other = (bit + 1 + frame % 10) % 11;
            let two = [(frame, bit), (frame, other)];
            assert_eq!(sum(&with_turned(&good, two.into_iter())), "0 2");
        }
    }
    let all = (0..128).flat_map(|frame| [(frame, frame % 11), (frame, (frame + 4) % 11)]);
    let most = with_turned(&good, all);
    assert_eq!(sum(&most), "0 256");
    // One bit more, and none of them counts.
    assert_eq!(sum(&with_turned(&most, [(100, 0)].into_iter())), "1 0");
    assert_eq!(
        sum(&with_turned(&most, [(127, 0), (127, 2)].into_iter())),
        "1 0"
    );
}

#[test]
fn headers() {
    let good = |count, first| {
        assert_eq!(
            read_header(&header([count, first, 0, 0])),
            Ok(Header { count, first })
        )
    };
    good(0, 16);
    good(1_000_000, 16);
    good(258, 17);
    good(1, u32::MAX);
    for fields in [
        [1_000_001, 16, 0, 0],
        [u32::MAX, 16, 0, 0],
        [1, 15, 0, 0],
        [1, 0, 0, 0],
        [1, 16, 1, 0],
        [1, 16, 0, 1],
        [1, 16, 5136, 1],
        [0, 0, 0, 0],
    ] {
        assert_eq!(
            read_header(&header(fields)),
            Err(Refusal::Header),
            "{fields:?}"
        );
        assert_eq!(listing(&header(fields)), "refused 8\n");
        assert_eq!(transcript(&header(fields)), "refused 8\n");
    }
    let whole = header([3, 16, 0, 0]);
    for length in 0..16 {
        assert_eq!(read_header(&whole[..length]), Err(Refusal::Header));
        assert_eq!(listing(&whole[..length]), "refused 8\n");
    }
    let longer = [whole, vec![255; 9]].concat();
    assert_eq!(
        read_header(&longer),
        Ok(Header {
            count: 3,
            first: 16
        })
    );
}

#[test]
fn runs() {
    let most = 5_120_000_000;
    for (length, count) in [
        (0, Ok(0)),
        (5120, Ok(1)),
        (10_240, Ok(2)),
        (most, Ok(1_000_000)),
    ] {
        assert_eq!(run_count(length), count);
    }
    for length in [
        1,
        5119,
        5121,
        7680,
        most - 1,
        most + 1,
        most + 5120,
        u64::MAX,
    ] {
        assert_eq!(run_count(length), Err(Refusal::Length));
        assert_eq!(start_of(length, 0), Err(Refusal::Length));
    }
    assert_eq!(start_of(10_240, 1), Ok(0));
    assert_eq!(start_of(10_240, 2), Ok(5120));
    assert_eq!(start_of(most, 1_000_000), Ok(most - 5120));
    for (length, k) in [(0, 0), (0, 1), (10_240, 0), (10_240, 3), (10_240, u64::MAX)] {
        assert_eq!(start_of(length, k), Err(Refusal::Range));
    }
}

/// Cut anywhere: whole superframes are counted, and the end is short until the last byte is there.
#[test]
fn cut_ends() {
    for (gap, first) in [("", 16), (" gap=7", 23)] {
        let whole = make(&format!("2 2{gap}"));
        assert_eq!(whole.len(), first + 10_240);
        for (length, superframes) in [
            (16, 0),
            (first - 1, 0),
            (first, 0),
            (first + 1, 0),
            (first + 5119, 0),
            (first + 5120, 1),
            (first + 5121, 1),
            (first + 10_239, 1),
        ] {
            if length >= 16 {
                assert_eq!(
                    listing(&whole[..length]),
                    all_clean(superframes, 0, "short")
                );
            }
        }
        assert_eq!(listing(&whole), all_clean(2, 0, "ok"));
        assert_eq!(make(&format!("2 2{gap} cut=5000")), whole[..5000]);
        assert_eq!(make(&format!("2 2{gap} short=3")), whole[..whole.len() - 3]);
    }
}

/// Bytes behind the end and before the first superframe are not looked at; a count of 0 ends at once.
#[test]
fn around_the_superframes() {
    let good = make("2 2");
    assert_eq!(listing(&make("2 2 tail=6000")), all_clean(2, 0, "ok"));
    assert_eq!(listing(&make("2 2 gap=5120")), all_clean(2, 0, "ok"));
    assert_eq!(listing(&make("2 2 count=1")), all_clean(1, 0, "ok"));
    assert_eq!(
        listing(&make("2 2 count=1000000")),
        all_clean(2, 0, "short")
    );
    assert_eq!(listing(&make("2 2 count=0")), all_clean(0, 0, "ok"));
    assert_eq!(
        listing(&make("2 0 first=4294967295")),
        all_clean(0, 0, "ok")
    );
    assert_eq!(
        listing(&make("2 2 first=4294967295")),
        all_clean(0, 0, "short")
    );
    // The first superframe taken for a gap.
    assert_eq!(
        listing(&make("2 2 first=5136 count=1")),
        all_clean(1, 0, "ok")
    );
    // The superframes start one byte late.
    assert_eq!(
        listing(&make("2 3 first=17 count=2")),
        all_clean(2, 2, "ok")
    );
    for fault in [
        "count=1000001",
        "first=15",
        "summary=1",
        "entries=1",
        "cut=15",
        "headless",
    ] {
        assert_eq!(
            listing(&make(&format!("2 2 {fault}"))),
            "refused 8\n",
            "{fault}"
        );
    }
    assert_eq!(make("2 2 headless"), good[16..]);
    assert_eq!(transcript(&good), transcript(&make("2 2 gap=100 tail=100")));
}

/// A pipe may hand over a byte at a time.
#[test]
fn short_reads() {
    struct Drip<'a>(&'a [u8]);
    impl Read for Drip<'_> {
        fn read(&mut self, buffer: &mut [u8]) -> io::Result<usize> {
            let count = buffer.len().min(1);
            self.0.read(&mut buffer[..count])
        }
    }
    let reel = make("3 2 gap=3 tail=1");
    let mut text = Vec::new();
    second::listing::list(Drip(&reel), &mut text).unwrap();
    assert_eq!(String::from_utf8(text).unwrap(), all_clean(2, 0, "ok"));
}

/// The transcript letter by letter, of three superframes made by hand.
#[test]
fn transcript_by_hand() {
    let scaled = |word| Superframe::zero().scale(1, word, "0000000000001111010111");
    let mut first = scaled("00001001110011");
    // One wrong place in programme 16; in programme 3 one copy of three is wrong in all 14.
    first = first.extra(15, &format!("1{}", "0".repeat(63)));
    first = first.extra(2, &format!("{}{}", "1".repeat(14), "0".repeat(50)));
    first.six = [1, 2, 3, 4, 5, 0xfe];
    let mut lost = Superframe::zero().bytes();
    lost[5080] ^= 7;
    let mut third = scaled("11111111111111").code(0, 2, -1).code(63, 31, 8191);
    third.blocks[1][0][7] ^= 1;
    third.sync = NEITHER;
    let mut third = third.bytes();
    // Two bits of the first sync of A, and one of the last of B.
    third[0] ^= 0x81;
    third[5081] ^= 0x20;
    let reel = reel(&[first.bytes(), lost, third]);

    let zeros = |count| vec!["0"; count].join(" ");
    let mut expected = vec!["superframe 1 number 0".to_string()];
    let factors = |second: &str| format!("factors 00 {second}{}", " 00".repeat(14));
    let words = format!("words 000000 0003d7{}", " 000000".repeat(14));
    expected.push("service 0 0 0102030405fe".to_string());
    expected.push("labels none".to_string());
    expected.push(factors("02"));
    expected.push(format!("far 0 0 14{} 1", " 0".repeat(12)));
    expected.push(words.clone());
    expected.push("sync 0".to_string());
    expected.push("blocks 512 0 0".to_string());
    for frame in 1..=64 {
        expected.push(format!("marks {frame} {}", "3".repeat(32)));
        expected.push(format!("samples {frame} {}", zeros(32)));
    }
    expected.push("superframe 2 number 3".to_string());
    expected.push("superframe 3 number 0".to_string());
    expected.push("service 0 7 000000000000".to_string());
    expected.push("labels none".to_string());
    expected.push(factors("--"));
    expected.push(format!("far 0 -{}", " 0".repeat(14)));
    expected.push(words);
    expected.push("sync 3".to_string());
    expected.push("blocks 511 1 0".to_string());
    for frame in 1..=64 {
        let mark = if frame == 2 { "1111" } else { "0000" };
        expected.push(format!("marks {frame} {mark}{}", "0".repeat(28)));
        expected.push(match frame {
            1 => format!("samples 1 0 0 -4 {}", zeros(29)),
            64 => format!("samples 64 {} 32764", zeros(31)),
            _ => format!("samples {frame} {}", zeros(32)),
        });
    }
    expected.push("end ok".to_string());
    let text = transcript(&reel);
    for (line, expected) in text.lines().zip(&expected) {
        assert_eq!(line, expected);
    }
    assert_eq!(text, expected.join("\n") + "\n");
    let cut = transcript(&reel[..reel.len() - 1]);
    let lost = expected
        .iter()
        .position(|line| line == "superframe 2 number 3")
        .unwrap();
    assert_eq!(cut, expected[..=lost].join("\n") + "\nend short\n");
}

/// Blocks with up to four wrong places, one in each frame, by hand: which of them are mended and how they are marked at each radius.
/// The listing has the ordinary reading.
#[test]
fn transcript_at_each_radius() {
    let mut damaged = Superframe::zero();
    for wrong in 1..=4 {
        // Block `wrong` of frame `wrong`: channels 4 wrong - 3 on.
        damaged.blocks[wrong - 1][wrong - 1][30..30 + wrong].fill(1);
    }
    let reel = reel(&[damaged.bytes(), damaged.bytes(), damaged.bytes()]);
    for (radius, blocks, marks) in [
        (2, "blocks 508 2 2", [1, 1, 2, 2]),
        (3, "blocks 508 3 1", [1, 1, 4, 2]),
    ] {
        let text = transcript_at(radius, &reel);
        assert_eq!(lines(&text, "blocks"), [blocks; 3]);
        let rows = lines(&text, "marks");
        for frame in 0..64 {
            // No factors in the first two superframes: mark 3 wins.
            let none = format!("marks {} {}", frame + 1, "3".repeat(32));
            assert_eq!([rows[frame], rows[64 + frame]], [none.as_str(); 2]);
            let mut row = [0; 32];
            if let Some(mark) = marks.get(frame) {
                row[4 * frame..4 * frame + 4].fill(*mark);
            }
            let row = second::text::digits(&row);
            assert_eq!(rows[128 + frame], format!("marks {} {row}", frame + 1));
        }
        // Bits 31 to 33 of a block are the last of the upper ones of its third code.
        let zero = format!("samples 3 {}", vec!["0"; 32].join(" "));
        assert_eq!(lines(&text, "samples 3 ")[2] == zero, radius == 3);
    }
    let counts = "superframes 3\nlost 0\nsync 0\nclean 1524\nmended 6\nbad 6\nend ok\n";
    assert_eq!(listing(&reel), counts);
}

/// Of a damaged reel all lines but those of blocks, marks and samples are the same at both radii, and all of a reel without such damage.
#[test]
fn transcripts_at_both_radii() {
    let others = |text: &str| -> Vec<String> {
        let radius = ["blocks", "marks", "samples"];
        let other = |line: &&str| !radius.iter().any(|word| line.starts_with(word));
        text.lines().filter(other).map(str::to_string).collect()
    };
    for words in [
        "4 8 upto=5 scale=9 sync=3@5",
        "4 6 rate=300 service=1%50",
        "4 4 chaff@3",
    ] {
        let reel = make(words);
        let (ordinary, wide) = (transcript(&reel), transcript_at(3, &reel));
        assert_eq!(others(&ordinary), others(&wide));
        assert_ne!(lines(&ordinary, "blocks"), lines(&wide, "blocks"));
        let has_4 = |text: &str| {
            let rows = lines(text, "marks");
            rows.iter()
                .any(|row| row.rsplit(' ').next().unwrap().contains('4'))
        };
        assert_eq!((has_4(&ordinary), has_4(&wide)), (false, true));
    }
    for words in [
        "4 6",
        "4 6 places=2 low=5",
        "4 6 burst=4 sync=3@2",
        "4 6 places=4",
    ] {
        let reel = make(words);
        assert_eq!(transcript(&reel), transcript_at(3, &reel), "{words}");
    }
    let text = transcript_at(3, &make("4 4 places=3"));
    assert_eq!(lines(&text, "blocks"), ["blocks 0 512 0"; 4]);
    let good = transcript(&make("4 4"));
    assert_eq!(lines(&text, "samples"), lines(&good, "samples"));
}

/// The lines of a transcript that start with a word.
fn lines<'a>(text: &'a str, word: &'a str) -> Vec<&'a str> {
    text.lines().filter(|line| line.starts_with(word)).collect()
}

/// A good reel of 73 superframes brings the labels in the last of them.
#[test]
fn labels_of_a_made_reel() {
    let text = transcript(&make("8 74"));
    let labels = lines(&text, "labels");
    for (n, line) in labels.iter().enumerate() {
        let words = line.split(' ').count();
        assert_eq!(words, if n + 1 == 73 { 33 } else { 2 });
    }
    let positions: Vec<String> = lines(&text, "service")
        .iter()
        .map(|line| line[..11].to_string())
        .collect();
    for (n, line) in positions.iter().enumerate() {
        let position = if n == 0 { 0 } else { (n - 1) % 8 + 1 };
        assert_eq!(*line, format!("service {position} 0"));
    }
    // A zero in place of a character is handed on; a Sync 1 in the middle drops all.
    let zero = transcript(&make("8 74 zero@18-25"));
    let label = |text: &str| {
        lines(text, "labels")[72]
            .split(' ')
            .nth(32)
            .unwrap_or("")
            .to_string()
    };
    assert_eq!(label(&zero)[..2], label(&text)[..2]);
    assert_eq!(&label(&zero)[2..4], "00");
    assert_eq!(label(&zero)[4..], label(&text)[4..]);
    for damage in [
        "sync1@40",
        "sync2@41",
        "service=1@40",
        "sync=3@40",
        "swap@40",
        "alternate@40",
    ] {
        let text = transcript(&make(&format!("8 74 {damage}")));
        assert!(
            lines(&text, "labels")
                .iter()
                .all(|line| *line == "labels none"),
            "{damage}"
        );
    }
}

/// Without the wrong bits of syncs.
fn counts_of(words: &str) -> [u64; 5] {
    let [superframes, lost, _, clean, mended, bad] = numbers_of(words);
    [superframes, lost, clean, mended, bad]
}

fn numbers_of(words: &str) -> [u64; 6] {
    let text = listing(&make(words));
    let numbers: Vec<u64> = text
        .lines()
        .filter_map(|line| line.split(' ').nth(1)?.parse().ok())
        .collect();
    numbers.try_into().unwrap()
}

/// Each word of damage does what it says.
#[test]
fn damage() {
    assert_eq!(counts_of("4 2"), [2, 0, 1024, 0, 0]);
    assert_eq!(counts_of("4 2 places=1"), [2, 0, 0, 1024, 0]);
    assert_eq!(counts_of("4 2 places=2"), [2, 0, 0, 1024, 0]);
    assert_eq!(counts_of("4 2 places=3@2"), [2, 0, 512, 0, 512]);
    assert_eq!(counts_of("4 3 places=5@2-3"), [3, 0, 512, 0, 1024]);
    assert_eq!(counts_of("4 2 low=12"), [2, 0, 1024, 0, 0]);
    assert_eq!(counts_of("4 2 burst=4")[4], 0);
    assert!(counts_of("4 2 burst=5")[4] > 0);
    assert_eq!(counts_of("4 2 rate=0"), [2, 0, 1024, 0, 0]);
    assert!(counts_of("4 2 rate=100")[3] > 200);
    let upto = counts_of("4 2 upto=3");
    assert!(upto[2] > 200 && upto[3] > 400 && upto[4] > 200);
    assert_eq!(numbers_of("4 2 sync=1"), [2, 0, 2, 1024, 0, 0]);
    assert_eq!(numbers_of("4 2 sync=2@2"), [2, 0, 2, 1024, 0, 0]);
    assert_eq!(numbers_of("4 2 syncs=1@2"), [2, 0, 128, 1024, 0, 0]);
    assert_eq!(numbers_of("4 2 syncs=2"), [2, 0, 512, 1024, 0, 0]);
    for word in [
        "noise",
        "sync=3",
        "sync=11",
        "syncs=3",
        "syncs=11",
        "swap",
        "alternate",
    ] {
        assert_eq!(
            counts_of(&format!("4 2 {word}@1")),
            [2, 1, 512, 0, 0],
            "{word}"
        );
    }
    let some = counts_of("4 100 noise%30")[1];
    assert!((10..50).contains(&some));
    assert_eq!(counts_of("4 2 chaff")[1], 0);
    let good = transcript(&make("4 4"));
    assert_eq!(transcript(&make("4 4 bbit")), good);
    let seven = transcript(&make("4 4 service=1@2"));
    let number = |line: &&str| line.as_bytes()[10];
    let numbers: Vec<u8> = lines(&seven, "service").iter().map(number).collect();
    assert_eq!(numbers, *b"0700");
}

/// Nothing of a reel changes but how far its scale words are from the nearest.
fn far_alone(words: &str) -> Vec<String> {
    let without = |text: &str| -> Vec<String> {
        let rest = text.lines().filter(|line| !line.starts_with("far "));
        rest.map(str::to_string).collect()
    };
    let reel = words.split(' ').take(2).collect::<Vec<_>>().join(" ");
    let text = transcript(&make(words));
    assert_eq!(
        without(&text),
        without(&transcript(&make(&reel))),
        "{words}"
    );
    let far = lines(&text, "far");
    let numbers = far.iter().flat_map(|line| line.split(' ').skip(1));
    numbers.map(str::to_string).collect()
}

/// Wrong places of scale words: seven at most come back as sent, and so does a word of which one copy is noise.
#[test]
fn damage_to_scale_words() {
    let all = |words: &str, number: &str| {
        let far = far_alone(words);
        assert_eq!(far.len(), 4 * 16);
        assert!(far.iter().all(|places| places == number), "{words}");
    };
    for seed in 4..10 {
        all(&format!("{seed} 4"), "0");
        for places in 0..=7 {
            all(&format!("{seed} 4 scale={places}"), &places.to_string());
        }
        for (places, number) in [(1, "2"), (2, "4"), (3, "6")] {
            all(&format!("{seed} 4 majority={places}"), number);
        }
        let far = far_alone(&format!("{seed} 4 copy"));
        let numbers: Vec<u8> = far.iter().map(|places| places.parse().unwrap()).collect();
        assert!(numbers.iter().all(|places| *places <= 14));
        assert!(numbers.iter().any(|places| *places > 7));
    }
    // From eight on a reel may have other factors, or none.
    let good = transcript(&make("4 20"));
    for places in [12, 16, 21] {
        let text = transcript(&make(&format!("4 20 scale={places}")));
        assert_ne!(lines(&text, "factors"), lines(&good, "factors"));
    }
}

/// Number 5 in every programme, whatever was wrong before; the information words stay. Where each place is wrong in two copies,
/// a scale word that differs from the sent one in n of 14 places is 28 - n away: six of them differ in 10, the most.
#[test]
fn ties() {
    for words in [
        "tie@2-3",
        "scale=30 tie@2-3",
        "copy tie@2-3",
        "majority=5 tie@2-3",
        "majority=14@2-3",
    ] {
        for seed in 4..10 {
            let text = transcript(&make(&format!("{seed} 4 {words}")));
            for n in [1, 2] {
                let factors = format!("factors{}", " --".repeat(16));
                assert_eq!(lines(&text, "factors")[n], factors, "{words}");
                assert_eq!(lines(&text, "far")[n], format!("far{}", " -".repeat(16)));
            }
            let good = transcript(&make(&format!("{seed} 4")));
            assert_eq!(lines(&text, "words"), lines(&good, "words"));
        }
    }
    // Two superframes on there are no factors, and before and behind there are.
    let text = transcript(&make("4 8 tie@3"));
    let marks: Vec<&str> = lines(&text, "marks 64 ")
        .iter()
        .map(|line| &line[9..])
        .collect();
    for (n, row) in marks.into_iter().enumerate() {
        let mark = if [0, 1, 4].contains(&n) { "3" } else { "0" };
        assert_eq!(row, mark.repeat(32), "superframe {}", n + 1);
    }
}

/// The same seed gives the same bytes, here and everywhere; another seed gives others.
#[test]
fn same_seed_same_bytes() {
    let sum = |reel: &[u8]| {
        reel.iter().fold(0u32, |sum, byte| {
            sum.wrapping_mul(31).wrapping_add(u32::from(*byte))
        })
    };
    let words =
        "upto=4 rate=5 sync=1%30 scale=4 service=1%20 gap=9 tail=11 low=2 burst=3 copy chaff@3";
    assert_eq!(sum(&make("1 3")), 1866234999);
    assert_eq!(sum(&make(&format!("1 4 {words}"))), 3326401160);
    assert_ne!(make("1 3"), make("2 3"));
}

#[test]
fn words_that_are_refused() {
    for word in [
        "",
        "nothing",
        "places",
        "places=",
        "places=64",
        "places=x",
        "places=-1",
        "copy=1",
        "tie=1",
        "scale=43",
        "sync=12",
        "syncs=12",
        "noise%101",
        "noise%",
        "noise@",
        "noise@x",
        "noise@1-",
        "phase=0",
        "phase=129",
        "gap=4294967280",
        "count=4294967296",
        "cut",
        "cut=-1",
        "places=99999999999999999999",
        "headless=1",
    ] {
        let order = Order::parse("1", "1", &[word.to_string()]);
        assert!(order.is_err(), "'{word}'");
    }
    assert!(Order::parse("x", "1", &[]).is_err());
    assert!(Order::parse("1", "", &[]).is_err());
}
