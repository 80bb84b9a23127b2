//! Lines that read blocks: which there are, and that each is answered as in numbers.

use crate::near::Code;
use second::answer::answer;
use second::bits::{self, Bit};
use second::calls;
use second::word::Reading;
use std::collections::{HashMap, HashSet};

/// The radius of a line that reads a block, and the block, where each is what its name says.
fn asked(line: &str) -> Option<(usize, [Bit; 77])> {
    let [radius, digits] = line.strip_prefix("bread ")?.split(' ').collect::<Vec<_>>()[..] else {
        return None;
    };
    if !["2", "3"].contains(&radius) || digits.contains(|digit| digit != '0' && digit != '1') {
        return None;
    }
    let block = bits::of_text(digits).try_into().ok()?;
    Some((radius.parse().ok()?, block))
}

/// The answer to it.
fn answered(code: &Code, radius: usize, block: &[Bit; 77]) -> (Reading, String) {
    let (reading, out) = code.read(radius, block);
    let number = match reading {
        Reading::Clean => 0,
        Reading::Mended(places) => places,
        Reading::Bad => 4,
    };
    let digits: String = out.iter().map(|bit| char::from(b'0' + bit)).collect();
    (reading, format!("0 {number} {digits}"))
}

/// The lines of each radius with their blocks, each held against what numbers say.
fn reads(lines: impl Iterator<Item = String>) -> Vec<(usize, [Bit; 77], Reading)> {
    let code = Code::new();
    let mut all = Vec::new();
    for line in lines {
        if let Some((radius, block)) = asked(&line) {
            let (reading, right) = answered(&code, radius, &block);
            assert_eq!(answer(&line), Some(right), "{line}");
            all.push((radius, block, reading));
        }
    }
    all
}

/// The first block that is read, as it was sent.
fn first() -> [Bit; 77] {
    calls::all().find_map(|line| asked(&line)).unwrap().1
}

/// One block with every choice of at most two wrong places at both radii; with every choice of three at radius 3, where it comes back as
/// sent, and with thousands at radius 2, where it is bad.
#[test]
fn systematic_lines() {
    let sent = first();
    let places = |block: &[Bit; 77]| -> Vec<usize> {
        let differ = (0..77).filter(|n| block[*n] != sent[*n]);
        differ.collect()
    };
    let mut met: HashMap<(usize, usize), HashSet<Vec<usize>>> = HashMap::new();
    for (radius, block, reading) in reads(calls::all()) {
        let wrong = places(&block);
        if wrong.len() <= 3 {
            let expected = match wrong.len() {
                0 => Reading::Clean,
                count if count > radius => Reading::Bad,
                count => Reading::Mended(count),
            };
            assert_eq!(reading, expected);
            met.entry((radius, wrong.len())).or_default().insert(wrong);
        }
    }
    let count = |radius, wrong| met[&(radius, wrong)].len();
    for radius in [2, 3] {
        let counts = [0, 1, 2].map(|wrong| count(radius, wrong));
        assert_eq!(counts, [1, 63, 1953]);
    }
    assert_eq!(count(3, 3), 39_711);
    assert!((3000..39_711).contains(&count(2, 3)));
    // Each place is among them.
    let all: HashSet<&usize> = met[&(2, 3)].iter().flatten().collect();
    assert_eq!(all.len(), 63);
}

/// Blocks far from a code word are read at both radii: with four wrong places bad, with five bad at 2 and now and then mended at 3.
#[test]
fn systematic_lines_with_more_wrong_places() {
    let sent = first();
    let mut at: HashMap<[Bit; 77], [Option<Reading>; 2]> = HashMap::new();
    for (radius, block, reading) in reads(calls::all()) {
        if bits::distance(&block, &sent) > 3 {
            at.entry(block).or_default()[radius - 2] = Some(reading);
        }
    }
    assert!(at.values().all(|both| both.iter().all(Option::is_some)));
    let bad = Some(Reading::Bad);
    let far = at.values().filter(|both| both[0] == bad);
    let mended = far.clone().filter(|both| both[1] != bad).count();
    let far = far.count();
    assert!(far >= 4000);
    // None of four, and of five about a fifth.
    assert!((300..500).contains(&mended), "{mended} of {far}");
}

/// Every number is a radius of some line, with good bits and with an entry that is no bit; but for 2 and 3 the answer is 2.
#[test]
fn systematic_lines_with_no_radius() {
    let mut met = HashSet::new();
    for line in calls::all().filter(|line| line.starts_with("bread ")) {
        let words: Vec<&str> = line.split(' ').collect();
        let Some(said) = answer(&line) else {
            continue;
        };
        let good = words[2].bytes().all(|digit| digit <= b'1');
        let radius: u8 = words[1].parse().unwrap();
        assert_eq!(said == "2", !good || !(2..=3).contains(&radius), "{line}");
        met.insert((radius, good));
    }
    assert_eq!(met.len(), 2 * 256);
}

/// An entry that is no bit stands at each place, at both radii; it is 2, though three places of the block are wrong.
#[test]
fn systematic_lines_out_of_range() {
    let mut places = HashSet::new();
    for line in calls::all().filter(|line| line.starts_with("bread ")) {
        let words: Vec<&str> = line.split(' ').collect();
        if words.len() == 3 && words[2].len() == 77 && ["2", "3"].contains(&words[1]) {
            let no_bit = words[2].find(|digit| ('2'..='9').contains(&digit));
            if let Some(place) = no_bit {
                assert_eq!(answer(&line).as_deref(), Some("2"));
                places.insert((words[1].to_string(), place));
            }
        }
    }
    assert_eq!(places.len(), 2 * 77);
}

/// The radius is missing, no number, or one that no byte holds; or the bits are not 77.
#[test]
fn unreadable_lines() {
    let unreadable: Vec<String> = calls::all()
        .filter(|line| line.starts_with("bread") && answer(line).is_none())
        .collect();
    assert_eq!(unreadable.len(), 18);
    let bits = "0".repeat(77);
    for (words, readable) in [
        (bits.clone(), false),
        (format!("256 {bits}"), false),
        (format!("-1 {bits}"), false),
        (format!("x {bits}"), false),
        (format!("03 {bits}"), false),
        (format!("{bits} 3"), false),
        (format!("3 {bits} 3"), false),
        (format!("3 {}", &bits[1..]), false),
        (format!("3 {bits}0"), false),
        (format!("3 {bits}"), true),
        (format!("255 {bits}"), true),
    ] {
        assert_eq!(answer(&format!("bread {words}")).is_some(), readable);
    }
}

/// The random lines have every reading at each radius, and numbers that are none.
#[test]
fn random_lines() {
    let mut seen = HashMap::new();
    for (radius, _, reading) in reads(calls::random(4, 20_000)) {
        *seen.entry((radius, format!("{reading:?}"))).or_insert(0) += 1;
    }
    assert_eq!(seen.len(), 4 + 5);
    assert!(seen.values().all(|times| *times > 50), "{seen:?}");
    let none = |line: &String| {
        let radius = line.strip_prefix("bread ").map(|rest| &rest[..2]);
        radius.is_some_and(|radius| !["2 ", "3 "].contains(&radius))
    };
    assert!(calls::random(4, 20_000).filter(none).count() > 50);
}
