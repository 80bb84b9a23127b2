//! Scale words and extra bits.

use second::answer::answer;
use second::bits::{self, Bit};
use second::calls;
use second::numbers::Refusal;
use second::random::Random;
use second::scale::{read, read_extra, words, write, Extra, Near};
use std::collections::HashSet;

fn three(word: &[Bit]) -> [Bit; 42] {
    word.repeat(3).try_into().unwrap()
}

fn turned(mut copies: [Bit; 42], places: &[usize]) -> [Bit; 42] {
    for place in places {
        copies[*place] ^= 1;
    }
    copies
}

/// The places of 42 in which two rows differ.
fn between(one: &[Bit; 42], other: &[Bit; 42]) -> Vec<usize> {
    (0..42).filter(|n| one[*n] != other[*n]).collect()
}

fn near(factors: (u8, u8), places: usize) -> Result<Near, Refusal> {
    let places = places as u8;
    Ok(Near { factors, places })
}

/// The scale words as numbers, by the six bits that lead: the multiples of the generator below x^14.
fn multiples() -> [u64; 64] {
    let mut words = [0; 64];
    for times in 0..64u64 {
        let powers = (0..6).filter(|power| times >> power & 1 == 1);
        let product = powers.fold(0, |sum, power| sum ^ 0b1_1101_0001 << power);
        words[(product >> 8) as usize] = product;
    }
    words
}

fn thrice(word: u64) -> u64 {
    word << 28 | word << 14 | word
}

/// In numbers: in how many places 42 bits differ from the nearest of 64, and the six leading bits of all that are so near.
fn nearest(words: &[u64; 64], copies: u64) -> (u32, Vec<u64>) {
    let places = |word: u64| (copies ^ thrice(word)).count_ones();
    let fewest = words.iter().map(|word| places(*word)).min().unwrap();
    let so_near = words.iter().filter(|word| places(**word) == fewest);
    (fewest, so_near.map(|word| word >> 8).collect())
}

/// What is read by that.
fn expected(words: &[u64; 64], copies: &[Bit; 42]) -> Result<Near, Refusal> {
    let (places, so_near) = nearest(words, bits::to_number(copies));
    match so_near[..] {
        [six] => near(((six / 8) as u8, (six % 8) as u8), places as usize),
        _ => Err(Refusal::ScaleWord),
    }
}

#[test]
fn scale_words_differ_in_5_places() {
    let all = words();
    assert_eq!(all.len(), 64);
    let (mut smallest, mut smallest_of_42) = (14, 42);
    for (n, (_, one)) in all.iter().enumerate() {
        for (_, other) in &all[..n] {
            smallest = smallest.min(bits::distance(one, other));
            smallest_of_42 = smallest_of_42.min(bits::distance(&three(one), &three(other)));
        }
    }
    assert_eq!((smallest, smallest_of_42), (5, 15));
}

#[test]
fn scale_words_are_multiples() {
    for (n, word) in multiples().into_iter().enumerate() {
        let factors = (n as u8 / 8, n as u8 % 8);
        assert_eq!(words()[n], (factors, bits::of_number(word, 14)));
    }
}

#[test]
fn factors_stand_highest_bit_first() {
    assert_eq!(write((5, 6)).unwrap()[..6], [1, 0, 1, 1, 1, 0]);
    for (left, right) in [(8, 0), (0, 8), (255, 255)] {
        assert_eq!(write((left, right)), Err(Refusal::Range));
    }
}

/// Document 01's bench words.
#[test]
fn bench_words() {
    let bench = |word| three(&bits::of_text(word));
    assert_eq!(read(&bench("00000000000000")), near((0, 0), 0));
    assert_eq!(read(&bench("00000111010001")), near((0, 1), 0));
    assert_eq!(read(&bench("00001001110011")), near((0, 2), 0));
    let two = turned(bench("00001001110011"), &[0, 41]);
    assert_eq!(read(&two), near((0, 2), 2));
}

/// How many choices of 0, 1, 2, 3 and 4 of 14 places leave a remainder that no other choice of as many or fewer leaves:
/// from each scale word so many words are nearer to it than to any other.
fn nearest_alone() -> [usize; 5] {
    let mut remainders = [1; 14];
    for power in 1..14 {
        let times_x = remainders[power - 1] << 1;
        remainders[power] = times_x ^ ((times_x >> 8) * 0b1_1101_0001);
    }
    let mut left_by = vec![(14, 0); 256];
    for choice in 0..1usize << 14 {
        let places = (0..14).filter(|power| choice >> power & 1 == 1);
        let remainder = places.fold(0, |sum, power| sum ^ remainders[power]);
        let (fewest, times): &mut (u32, u32) = &mut left_by[remainder];
        match choice.count_ones() {
            count if count < *fewest => (*fewest, *times) = (count, 1),
            count if count == *fewest => *times += 1,
            _ => {}
        }
    }
    std::array::from_fn(|count| {
        let alone = left_by.iter().filter(|left| **left == (count as u32, 1));
        alone.count()
    })
}

/// Three equal copies: from each of 64 words the same numbers are read, three times as many places away; nothing
/// else is. The unshortened code of 15 bits would read others.
#[test]
fn equal_copies_counted() {
    let alone = nearest_alone();
    assert_eq!(alone, [1, 14, 91, 52, 0]);
    let mut read_of = vec![[0; 5]; 64];
    let mut refused = 0;
    for number in 0..1 << 14 {
        match read(&three(&bits::of_number(number, 14))) {
            Ok(Near { factors, places }) => {
                let (left, right) = factors;
                assert_eq!(places % 3, 0);
                read_of[usize::from(8 * left + right)][usize::from(places / 3)] += 1;
            }
            Err(refusal) => {
                assert_eq!(refusal, Refusal::ScaleWord);
                refused += 1;
            }
        }
    }
    assert!(read_of.iter().all(|counts| *counts == alone));
    assert_eq!(refused, 16384 - 64 * (1 + 14 + 91 + 52));
}

#[test]
fn any_two_places_wrong_are_mended() {
    for (factors, word) in words() {
        let sent = three(word);
        assert_eq!(read(&sent), near(*factors, 0));
        for one in 0..42 {
            assert_eq!(read(&turned(sent, &[one])), near(*factors, 1));
            for two in 0..one {
                assert_eq!(read(&turned(sent, &[one, two])), near(*factors, 2));
            }
        }
    }
}

/// Document 02, P4: at most seven of the 42.
#[test]
fn seven_places_wrong_come_back_as_sent() {
    let mut random = Random::stream(&[8]);
    for (factors, word) in words() {
        for count in 3..=7 {
            for _ in 0..150 {
                let wrong = turned(three(word), &random.places(count, 42));
                assert_eq!(read(&wrong), near(*factors, count));
            }
        }
    }
}

/// Of the 15 places to a nearest neighbour seven are mended; with eight the neighbour is nearer.
#[test]
fn eight_places_wrong_may_be_another() {
    let mut random = Random::stream(&[9]);
    let mut pairs = 0;
    for (factors, word) in words() {
        for (others, other) in words() {
            let places = between(&three(word), &three(other));
            if places.len() != 15 {
                continue;
            }
            pairs += 1;
            let order = random.places(15, 15);
            let places: Vec<usize> = order.into_iter().map(|n| places[n]).collect();
            let seven = turned(three(word), &places[..7]);
            assert_eq!(read(&seven), near(*factors, 7));
            let eight = turned(three(word), &places[..8]);
            assert_eq!(read(&eight), near(*others, 7));
        }
    }
    // 12 words of weight 5.
    assert_eq!(pairs, 64 * 12);
}

/// A place of 14 in the two other copies, as places of 42.
fn beside(spared: usize, place: usize) -> [usize; 2] {
    [(spared + 1) % 3, (spared + 2) % 3].map(|copy| 14 * copy + place)
}

/// Document 02's own case: two wrong bits at each of three places, whichever places and copies.
#[test]
fn six_wrong_bits_at_three_places() {
    let choices = (0..1u32 << 14).filter(|choice| choice.count_ones() == 3);
    let choices: Vec<u32> = choices.collect();
    assert_eq!(choices.len(), 364);
    for (factors, word) in words().iter().step_by(13) {
        for choice in &choices {
            let places: Vec<usize> = (0..14).filter(|n| choice >> n & 1 == 1).collect();
            for n in 0..27 {
                let spared = [n / 9, n / 3 % 3, n % 3];
                let six = spared.into_iter().zip(&places);
                let six: Vec<usize> = six.flat_map(|(s, place)| beside(s, *place)).collect();
                assert_eq!(read(&turned(three(word), &six)), near(*factors, 6));
            }
        }
    }
}

/// At the six places in which two words differ, one copy says the other word at three and two copies do at three: 9 places from both.
/// A third word is 12 places away, as it differs from both at two other places at least.
#[test]
fn half_of_the_way_is_refused() {
    let mut pairs = 0;
    for (n, (factors, word)) in words().iter().enumerate() {
        for (others, other) in &words()[..n] {
            let differ: Vec<usize> = (0..14).filter(|k| word[*k] != other[*k]).collect();
            if differ.len() != 6 {
                continue;
            }
            pairs += 1;
            let mut half = Vec::new();
            for (k, place) in differ.iter().enumerate() {
                half.push(14 * (k % 3) + place);
                if k < 3 {
                    half.push(14 * ((k + 1) % 3) + place);
                }
            }
            assert_eq!(half.len(), 9);
            let tie = turned(three(word), &half);
            assert_eq!(read(&tie), Err(Refusal::ScaleWord));
            assert_eq!(read(&turned(tie, &half[..1])), near(*factors, 8));
            // The first of the six is turned in its first two copies: here in the third as well.
            let further = turned(tie, &[28 + differ[0]]);
            assert_eq!(read(&further), near(*others, 8));
        }
    }
    // 18 words of weight 6.
    assert_eq!(pairs, 64 * 18 / 2);
}

/// Three words, each two of them 6 places apart, one as each copy: 12 places from all three.
#[test]
fn three_are_equally_near() {
    // Factors 0 and 0, 0 and 2, 0 and 4.
    let three = ["00000000000000", "00001001110011", "00010011100110"].map(bits::of_text);
    for [one, other] in [[0, 1], [0, 2], [1, 2]] {
        assert_eq!(bits::distance(&three[one], &three[other]), 6);
    }
    let copies: [Bit; 42] = three.concat().try_into().unwrap();
    assert_eq!(read(&copies), Err(Refusal::ScaleWord));
    let so_near = nearest(&multiples(), bits::to_number(&copies));
    assert_eq!(so_near, (12, vec![0, 2, 4]));
}

/// The code of 15 bits has the word of 15 ones, so its words that lead with a 1 are the complements of scale words. They are
/// none themselves: six scale words, of weight 10, are as near as any, 4 places from each copy.
#[test]
fn words_of_the_longer_code_are_not_taken() {
    for (factors, word) in words() {
        let complement: Vec<Bit> = word.iter().map(|bit| 1 - bit).collect();
        assert_eq!(
            read(&three(&complement)),
            Err(Refusal::ScaleWord),
            "{factors:?}"
        );
        let (places, so_near) = nearest(&multiples(), bits::to_number(&three(&complement)));
        assert_eq!((places, so_near.len()), (12, 6));
    }
}

/// The two others outweigh it, wherever it is near; the number is how far it is.
#[test]
fn one_copy_may_be_anything() {
    let mut random = Random::stream(&[7]);
    for (factors, word) in words() {
        for copy in 0..3 {
            let complement: Vec<Bit> = word.iter().map(|bit| 1 - bit).collect();
            let (_, other) = &words()[random.index(64)];
            for anything in [&random.bits::<14>()[..], &complement, other] {
                let mut copies = three(word);
                copies[14 * copy..][..14].copy_from_slice(anything);
                let places = bits::distance(word, anything);
                assert_eq!(read(&copies), near(*factors, places));
            }
        }
    }
}

/// Noise, and words with any number of wrong places, against the same in numbers. Of noise 28 of a hundred are refused.
#[test]
fn read_as_in_numbers() {
    let numbers = multiples();
    let mut random = Random::stream(&[10]);
    let mut refused = 0;
    for _ in 0..20_000 {
        let noise: [Bit; 42] = random.bits();
        assert_eq!(read(&noise), expected(&numbers, &noise));
        refused += u32::from(read(&noise).is_err());
        let (_, word) = &words()[random.index(64)];
        let count = random.index(43);
        let wrong = turned(three(word), &random.places(count, 42));
        assert_eq!(read(&wrong), expected(&numbers, &wrong));
    }
    assert!((5400..5800).contains(&refused), "{refused}");
}

/// Also where scale words are equally near: all ones.
#[test]
fn entries_out_of_range() {
    for filled in [0, 1] {
        for place in 0..64 {
            let mut extra = [filled; 64];
            extra[place] = 2;
            assert_eq!(read_extra(&extra), Err(Refusal::Range));
            if place < 42 {
                let copies = extra[..42].try_into().unwrap();
                assert_eq!(read(&copies), Err(Refusal::Range));
            }
        }
    }
}

/// The information word comes first bit highest, also beside number 5.
#[test]
fn information_word() {
    let mut extra = [0; 64];
    extra[..42].copy_from_slice(&three(&bits::of_text("00000111010001")));
    extra[4] = 1;
    extra[42] = 1;
    extra[62] = 1;
    let information = (1 << 21) + 2;
    let near = near((0, 1), 1).ok();
    assert_eq!(read_extra(&extra), Ok(Extra { near, information }));
    // As near to six scale words: all ones.
    extra[..42].fill(1);
    let near = None;
    assert_eq!(read_extra(&extra), Ok(Extra { near, information }));
}

/// The 42 bits of a line that reads some, where each is a bit; and the rest of its bits.
fn asked(line: &str) -> Option<([Bit; 42], &str)> {
    let (name, digits) = line.split_once(' ')?;
    let length = match name {
        "sread" => 42,
        "sextra" => 64,
        _ => return None,
    };
    if digits.len() != length || digits.contains(|digit| digit > '1') {
        return None;
    }
    let (copies, rest) = digits.split_at(42);
    Some((bits::of_text(copies).try_into().unwrap(), rest))
}

/// The answer to it, by numbers.
fn answered(words: &[u64; 64], copies: &[Bit; 42], rest: &str) -> String {
    let word = match rest {
        "" => String::new(),
        rest => format!(" {}", u64::from_str_radix(rest, 2).unwrap()),
    };
    match expected(words, copies) {
        Ok(Near { factors, places }) => format!("0 {} {} {places}{word}", factors.0, factors.1),
        Err(_) => format!("5{word}"),
    }
}

/// The systematic lines are answered as in numbers; ties are of two to six.
#[test]
fn systematic_answers() {
    let numbers = multiples();
    let (mut ties, mut extras) = (HashSet::new(), HashSet::new());
    for line in calls::all() {
        let Some((copies, rest)) = asked(&line) else {
            continue;
        };
        let right = answered(&numbers, &copies, rest);
        assert_eq!(answer(&line), Some(right), "{line}");
        let (places, so_near) = nearest(&numbers, bits::to_number(&copies));
        ties.insert(so_near.len());
        if !rest.is_empty() {
            extras.insert((so_near.len() > 1, places));
        }
    }
    assert_eq!(ties, HashSet::from([1, 2, 3, 4, 5, 6]));
    assert!(extras.contains(&(false, 7)) && extras.contains(&(true, 9)));
}

/// The 42 bits of each line that reads scale words alone.
fn systematic_reads() -> HashSet<u64> {
    calls::all()
        .filter(|line| line.starts_with("sread"))
        .filter_map(|line| Some(bits::to_number(&asked(&line)?.0)))
        .collect()
}

/// All equal copies, every scale word with at most two wrong places, document 02's case, three scale words as the copies.
#[test]
fn systematic_lines() {
    let numbers = multiples();
    let reads = systematic_reads();
    assert!((0..1 << 14).all(|word| reads.contains(&thrice(word))));
    for word in numbers.map(thrice) {
        for one in 0..42 {
            assert!(reads.contains(&(word ^ 1 << one)));
            for two in 0..42 {
                assert!(reads.contains(&(word ^ 1 << one ^ 1 << two)));
            }
        }
    }
    let at_three = |copies: &&u64| {
        let wrong = *copies ^ thrice(numbers[21]);
        let at = |n: u32| (wrong >> n & 1) + (wrong >> (n + 14) & 1) + (wrong >> (n + 28) & 1);
        let two = (0..14).filter(|n| at(*n) == 2).count();
        wrong.count_ones() == 6 && two == 3
    };
    assert_eq!(reads.iter().filter(at_three).count(), 364 * 27);
    for other in numbers {
        for third in numbers {
            assert!(reads.contains(&(numbers[21] << 28 | other << 14 | third)));
        }
    }
}

/// Half of the way between two: each pair of words has the places around it, 7 and 8 of 15, also where the copies are not equal.
#[test]
fn systematic_lines_between_two_words() {
    let numbers = multiples();
    let mut met = HashSet::new();
    let unequal = |copies: &u64| *copies != thrice(copies % (1 << 14));
    for copies in systematic_reads().into_iter().filter(unequal) {
        let places = numbers.map(|word| (copies ^ thrice(word)).count_ones());
        for (n, one) in numbers.iter().enumerate() {
            for (m, other) in numbers[..n].iter().enumerate() {
                let apart = (thrice(*one) ^ thrice(*other)).count_ones();
                let more = i64::from(places[n]) - i64::from(places[m]);
                if places[n] + places[m] == apart && more.abs() < 3 {
                    met.insert((n, m, more));
                }
            }
        }
    }
    // 992 pairs an even number of places apart have three steps each, 1,024 have two.
    assert_eq!(met.len(), 992 * 3 + 1024 * 2);
}

/// An entry that is no bit stands at each place of some line; it is 2, though scale words are equally near.
#[test]
fn systematic_lines_out_of_range() {
    let mut places = HashSet::new();
    for line in calls::all() {
        let (name, digits) = line.split_once(' ').unwrap_or((&line, ""));
        let no_bit = digits.find(|digit| ('2'..='9').contains(&digit));
        if ["sread", "sextra"].contains(&name) && no_bit.is_some() {
            assert_eq!(answer(&line).as_deref(), Some("2"));
            places.insert((name.to_string(), no_bit));
        }
    }
    assert_eq!(places.len(), 42 + 64);
}

/// The random lines have every number of places up to 16, and ties. Many have more wrong places than are surely mended.
#[test]
fn random_lines() {
    let numbers = multiples();
    let mut seen = HashSet::new();
    let (mut lines, mut many) = (0, 0);
    for line in calls::random(3, 30_000) {
        if let Some((copies, rest)) = asked(&line) {
            let right = answered(&numbers, &copies, rest);
            assert_eq!(answer(&line), Some(right), "{line}");
            let places = expected(&numbers, &copies).map(|near| near.places);
            seen.insert((rest.is_empty(), places.ok()));
            lines += 1;
            many += u32::from(matches!(places, Ok(8..=12)));
        }
    }
    assert!(4 * many > lines);
    for alone in [true, false] {
        assert!(seen.contains(&(alone, None)));
        assert!((0..=16).all(|places| seen.contains(&(alone, Some(places)))));
    }
}
