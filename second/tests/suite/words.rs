//! The code of 63 bits: its distance, and reading at both radii against other ways.

use crate::near::{left, one, Code};
use second::bits::{self, Bit};
use second::random::Random;
use second::word::{check_bits, choices, read, Reading};
use std::collections::HashSet;

fn written(random: &mut Random) -> [Bit; 63] {
    let mut word = [0; 63];
    word[..44].copy_from_slice(&random.bits::<44>());
    let check = check_bits(&word[..44]);
    word[44..].copy_from_slice(&check);
    word
}

fn turned(word: &[Bit; 63], places: &[usize]) -> [Bit; 63] {
    let mut out = *word;
    for place in places {
        out[*place] ^= 1;
    }
    out
}

fn is_code_word(word: &[Bit; 63]) -> bool {
    check_bits(&word[..44]) == word[44..]
}

/// The reading at a radius and the word that comes out.
fn reading(radius: u8, word: &[Bit; 63]) -> (Reading, [Bit; 63]) {
    let mut out = *word;
    let reading = read(radius, &mut out);
    (reading, out)
}

/// How many code words there are of each weight: the 2^19 words of the dual code are counted one by one, and from their
/// weights come those of the code (MacWilliams).
fn weights() -> Vec<i128> {
    let mut rows = [0u64; 19];
    for place in 0..63 {
        let left = if place < 44 {
            let mut sound = [0; 44];
            sound[place] = 1;
            check_bits(&sound)
        } else {
            (44..63).map(|check| Bit::from(check == place)).collect()
        };
        for (row, bit) in rows.iter_mut().zip(left) {
            *row |= u64::from(bit) << place;
        }
    }
    let mut dual = [0i128; 64];
    let mut word = 0;
    dual[0] = 1;
    for n in 1u32..1 << 19 {
        // Gray's order: each word is the one before with one row added.
        word ^= rows[n.trailing_zeros() as usize];
        dual[word.count_ones() as usize] += 1;
    }
    let of_weight = |weight: i128| {
        let sum: i128 = (0..64)
            .map(|j| dual[j as usize] * krawtchouk(weight, j))
            .sum();
        assert_eq!(sum % (1 << 19), 0);
        sum >> 19
    };
    (0..64).map(of_weight).collect()
}

/// The coefficient of x^k in (1-x)^j (1+x)^(63-j).
fn krawtchouk(k: i128, j: i128) -> i128 {
    let term = |i: i128| binomial(j, i) * binomial(63 - j, k - i) * if i % 2 == 0 { 1 } else { -1 };
    (0..=k).map(term).sum()
}

fn binomial(n: i128, k: i128) -> i128 {
    if k < 0 || k > n {
        return 0;
    }
    (0..k).fold(1, |product, i| product * (n - i) / (i + 1))
}

/// The code is linear, so the smallest weight is the distance.
#[test]
fn code_words_differ_in_8_places() {
    let weights = weights();
    assert_eq!(weights[..8], [1, 0, 0, 0, 0, 0, 0, 0]);
    assert!(weights[8] > 0);
    assert_eq!(weights.iter().sum::<i128>(), 1 << 44);
}

/// Every choice of at most three places is there once, in order; no two leave the same remainder.
#[test]
fn choices_of_at_most_three_places() {
    let choices = choices();
    assert_eq!(choices.len(), 1 + 63 + 1_953 + 39_711);
    assert!(choices.iter().flatten().all(|place| *place < 63));
    for places in &choices {
        assert!(places.windows(2).all(|two| two[0] < two[1]));
    }
    let number = |places: &Vec<usize>| places.iter().fold(0, |sum, place| sum | one(*place));
    let numbers: Vec<u64> = choices.iter().map(number).collect();
    assert_eq!(numbers.iter().collect::<HashSet<_>>().len(), numbers.len());
    let remainders: HashSet<u64> = numbers.into_iter().map(left).collect();
    assert_eq!(remainders.len(), choices.len());
}

/// Every word at most three places away is tried, and at most one of them is a code word.
fn by_brute_force(radius: usize, word: &[Bit; 63]) -> (Reading, [Bit; 63]) {
    let number = bits::to_number(word);
    let mut found = Vec::new();
    let mut meet = |places: &[usize]| {
        let near = places.iter().fold(number, |near, place| near ^ one(*place));
        if left(near) == 0 {
            found.push(places.to_vec());
        }
    };
    meet(&[]);
    for a in 0..63 {
        meet(&[a]);
        for b in a + 1..63 {
            meet(&[a, b]);
            for c in b + 1..63 {
                meet(&[a, b, c]);
            }
        }
    }
    assert!(found.len() <= 1);
    match found.pop() {
        Some(places) if places.is_empty() => (Reading::Clean, *word),
        Some(places) if places.len() <= radius => {
            (Reading::Mended(places.len()), turned(word, &places))
        }
        _ => (Reading::Bad, *word),
    }
}

#[test]
fn reading_is_the_nearest_code_word() {
    let code = Code::new();
    let mut random = Random::stream(&[1]);
    let mut numbers = HashSet::new();
    let mut try_one = |word: &[Bit; 63]| {
        for radius in [2, 3] {
            let expected = by_brute_force(radius, word);
            assert_eq!(reading(radius as u8, word), expected);
            assert_eq!(code.read(radius, word), expected);
            numbers.insert(format!("{radius} {:?}", expected.0));
        }
    };
    for wrong in (0..=9).chain(0..=9) {
        let places = random.places(wrong, 63);
        try_one(&turned(&written(&mut random), &places));
    }
    for _ in 0..10 {
        try_one(&random.bits());
    }
    // Clean, bad and each number at each radius.
    assert_eq!(numbers.len(), 4 + 5);
}

/// What is not bad at radius 2 is the same at radius 3. What is bad there is mended with 3 exactly where a code word lies three
/// places away: where one place can be turned so that the ordinary reading mends two more.
#[test]
fn radius_3_adds_the_words_three_places_away() {
    let code = Code::new();
    let mut random = Random::stream(&[5]);
    let mut count = [0; 3];
    for n in 0..12_000 {
        let word = match n % 12 {
            11 => random.bits(),
            wrong => {
                let places = random.places(wrong, 63);
                turned(&written(&mut random), &places)
            }
        };
        let wide = reading(3, &word);
        assert_eq!(wide, code.read(3, &word));
        if reading(2, &word).0 != Reading::Bad {
            assert_eq!(wide, reading(2, &word));
            count[0] += 1;
            continue;
        }
        let near = (0..63).find_map(|place| {
            let (reading, out) = reading(2, &turned(&word, &[place]));
            (reading == Reading::Mended(2)).then_some(out)
        });
        match near {
            Some(out) => {
                assert_eq!(wide, (Reading::Mended(3), out));
                assert_eq!(bits::distance(&word, &out), 3);
                count[1] += 1;
            }
            None => {
                assert_eq!(wide, (Reading::Bad, word));
                count[2] += 1;
            }
        }
    }
    assert!(count.iter().all(|times| *times > 1000), "{count:?}");
}

/// Six wrong places may lead to another code word; then that one comes out (demand 2).
#[test]
fn six_wrong_places_may_mend_to_another_word() {
    let mut random = Random::stream(&[2]);
    let sent = written(&mut random);
    let mut mended = 0;
    for _ in 0..10_000 {
        let received = turned(&sent, &random.places(6, 63));
        let (reading, out) = reading(2, &received);
        if reading != Reading::Bad {
            assert_eq!(reading, Reading::Mended(2));
            assert!(is_code_word(&out) && out != sent);
            mended += 1;
        }
    }
    assert!(mended > 0);
}

/// Hands on the word with each choice of so many of its places turned, all of them from `first` on.
fn each_turned(word: &mut [Bit; 63], first: usize, count: usize, meet: &mut dyn FnMut(&[Bit; 63])) {
    if count == 0 {
        return meet(word);
    }
    for place in first..63 {
        word[place] ^= 1;
        each_turned(word, place + 1, count - 1, meet);
        word[place] ^= 1;
    }
}

/// Every choice of so many places comes back as sent with that number.
fn assert_mended(radius: u8, sent: &[Bit; 63], wrong: usize) {
    let expected = match wrong {
        0 => Reading::Clean,
        _ => Reading::Mended(wrong),
    };
    each_turned(&mut sent.clone(), 0, wrong, &mut |received| {
        assert_eq!(reading(radius, received), (expected, *sent));
    });
}

/// Every choice of so many places is bad and as received.
fn assert_bad(radius: u8, sent: &[Bit; 63], wrong: usize) {
    each_turned(&mut sent.clone(), 0, wrong, &mut |received| {
        assert_eq!(reading(radius, received), (Reading::Bad, *received));
    });
}

/// Demand 3: every choice of up to four places, and many of five.
#[test]
fn up_to_five_wrong_places() {
    let mut random = Random::stream(&[3]);
    let sent = written(&mut random);
    for wrong in [0, 1, 2] {
        assert_mended(2, &sent, wrong);
    }
    for wrong in [3, 4] {
        assert_bad(2, &sent, wrong);
    }
    for _ in 0..20_000 {
        let received = turned(&sent, &random.places(5, 63));
        assert_eq!(reading(2, &received), (Reading::Bad, received));
    }
}

/// Document 02, P9: every choice of up to three places comes back as sent, and every choice of four is bad.
#[test]
fn up_to_four_wrong_places_at_radius_3() {
    let sent = written(&mut Random::stream(&[6]));
    for wrong in [0, 1, 2, 3] {
        assert_mended(3, &sent, wrong);
    }
    assert_bad(3, &sent, 4);
}

/// Of all choices of five about a fifth are mended, to a word that was not sent: those that lie inside the eight places in which
/// another code word differs from the sent one, 56 of each eight.
#[test]
fn five_wrong_places_may_mend_to_another_word_at_radius_3() {
    let sent = written(&mut Random::stream(&[7]));
    let (mut all, mut mended) = (0, 0);
    each_turned(&mut sent.clone(), 0, 5, &mut |received| {
        let (reading, out) = reading(3, received);
        match reading {
            Reading::Bad => assert_eq!(out, *received),
            _ => {
                assert_eq!((reading, out != sent), (Reading::Mended(3), true));
                mended += 1;
            }
        }
        all += 1;
    });
    assert_eq!(all, binomial(63, 5));
    assert_eq!(mended, binomial(8, 5) * weights()[8]);
    assert!(100 * mended > 18 * all && 100 * mended < 20 * all);
}
