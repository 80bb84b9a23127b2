//! Call lines that read scale words: the 42 bits near one of them, between two, and far from all.

use super::{between, part_way, sent, turn};
use crate::bits::{self, Bit};
use crate::random::Random;
use crate::scale::{self, COPIES, EXTRA, INFORMATION, WORD};
use crate::text;

/// The scale word beside which others stand, counted from 0: factors 2 and 5.
const ONE: usize = 21;

/// The systematic lines.
pub fn all() -> impl Iterator<Item = String> {
    let written = (0..100).map(|n| format!("swrite {} {}", n / 10, n % 10));
    let read = equal_copies()
        .chain(pairs_of_places())
        .chain(between_words())
        .chain(three_words())
        .chain(two_copies_at_three_places());
    written
        .chain(read.map(|copies| read_line(&copies)))
        .chain(extra_between_words())
        .chain(out_of_range())
}

fn read_line(copies: &[Bit; COPIES]) -> String {
    format!("sread {}", text::digits(copies))
}

/// Each of 16,384 words of 14 bits, as three equal copies.
fn equal_copies() -> impl Iterator<Item = [Bit; COPIES]> {
    (0..1 << WORD).map(|number| {
        let word = bits::of_number(number, WORD);
        std::array::from_fn(|n| word[n % WORD])
    })
}

/// Every scale word with no wrong place, with each one and with each two of its 42.
fn pairs_of_places() -> impl Iterator<Item = [Bit; COPIES]> {
    let singles = (0..COPIES).map(|one| vec![one]);
    let pairs = (0..COPIES).flat_map(|one| (one + 1..COPIES).map(move |two| vec![one, two]));
    let choices: Vec<Vec<usize>> = [vec![]].into_iter().chain(singles).chain(pairs).collect();
    (0..64).flat_map(move |n| {
        let choices = choices.clone().into_iter();
        choices.map(move |places| with_turned(sent(n), places))
    })
}

fn with_turned(mut copies: [Bit; COPIES], places: Vec<usize>) -> [Bit; COPIES] {
    turn(&mut copies, places);
    copies
}

/// Every two scale words, by their places in the list of 64.
fn pairs_of_words() -> impl Iterator<Item = (usize, usize)> {
    (0..64).flat_map(|one| (one + 1..64).map(move |other| (one, other)))
}

/// From one scale word half of the way to another, and the step before and behind: the first of the places in
/// which they differ, and as many at random. Two that are 15 apart have 7 and 8 here.
fn between_words() -> impl Iterator<Item = [Bit; COPIES]> {
    pairs_of_words().flat_map(|(one, other)| {
        let mut random = Random::stream(&[204, one as u64, other as u64]);
        let places = between(one, other);
        let mut all = Vec::new();
        for count in (places.len() - 1) / 2..=places.len() / 2 + 1 {
            all.push(with_turned(sent(one), places[..count].to_vec()));
            all.push(part_way(&mut random, one, &places, count));
        }
        all
    })
}

/// Half of the way, with an information word behind.
fn extra_between_words() -> impl Iterator<Item = String> {
    pairs_of_words().map(|(one, other)| {
        let mut random = Random::stream(&[205, one as u64, other as u64]);
        let places = between(one, other);
        let copies = part_way(&mut random, one, &places, places.len() / 2);
        let information = random.bits::<INFORMATION>();
        format!(
            "sextra {}",
            text::digits(&[&copies[..], &information].concat())
        )
    })
}

/// One scale word as the first copy, and every two as the others: three that are as far from each other are as near.
fn three_words() -> impl Iterator<Item = [Bit; COPIES]> {
    let words = |n: usize| [ONE, n / 64, n % 64].map(|n| &scale::words()[n].1);
    (0..64 * 64).map(move |n| std::array::from_fn(|place| words(n)[place / WORD][place % WORD]))
}

/// Six wrong bits, two at each of three places (document 02, P4): every choice of the places and of the copies.
fn two_copies_at_three_places() -> impl Iterator<Item = [Bit; COPIES]> {
    let choices = (0..WORD)
        .flat_map(|a| (a + 1..WORD).flat_map(move |b| (b + 1..WORD).map(move |c| [a, b, c])));
    choices.flat_map(|places| {
        (0..27).map(move |n| {
            // At each place the copy that stays right.
            let spared = [n / 9, n / 3 % 3, n % 3];
            let mut copies = sent(ONE);
            for (place, spared) in places.into_iter().zip(spared) {
                let two = (0..3).filter(|copy| *copy != spared);
                turn(&mut copies, two.map(|copy| WORD * copy + place).collect());
            }
            copies
        })
    })
}

/// An entry that is no bit at each place, beside scale words that are equally near: all ones are 12 places from six of them.
fn out_of_range() -> impl Iterator<Item = String> {
    let entry = |place: usize| (2 + place % 8) as Bit;
    let copies = (0..COPIES).map(move |place| {
        let mut copies = [1; COPIES];
        copies[place] = entry(place);
        read_line(&copies)
    });
    let extra = (0..EXTRA).map(move |place| {
        let mut extra = [1; EXTRA];
        extra[place] = entry(place);
        format!("sextra {}", text::digits(&extra))
    });
    copies.chain(extra)
}
