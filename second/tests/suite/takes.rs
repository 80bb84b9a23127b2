//! Lines that take a superframe: how it is made, what is answered, and which lines there are.

use crate::hand::busy_state;
use crate::totals::{over, Read};
use second::answer::{answer, state_text};
use second::bits;
use second::calls;
use second::frame;
use second::recipe::Recipe;
use second::scale::{Extra, Near};
use second::service::Sync;
use second::superframe::{Counts, State, Taken};
use std::collections::HashSet;

/// A superframe as it is written, with nothing turned.
fn plain(seed: u32) -> Recipe {
    Recipe {
        seed,
        service: [0x80, 0x01, 0x12, 0x34, 0x56, 0xff, 0x05, 0xcf],
        rate: 0,
        scale: 0,
        place: 0,
        turned: 0,
    }
}

/// The rule of README.md in numbers that are never cut off.
fn number(recipe: &Recipe, kind: u64, place: u64) -> u64 {
    let two_to_32 = 1u64 << 32;
    let stirred = |x: u64, more: u64| ((x ^ (x / 65536)) * 1_664_525 + more) % two_to_32;
    let named = stirred(u64::from(recipe.seed), 65536 * kind + place);
    stirred(stirred(named, 1_013_904_223), 1_013_904_223) / 65536
}

fn taken(state: &State, recipe: &Recipe) -> Taken {
    let (taken, _) = state.take(2, &recipe.superframe().unwrap());
    taken.unwrap()
}

/// At factor 2 a sample is its code. These were worked out apart from both programs.
#[test]
fn codes_of_a_recipe() {
    let mut state = State::fresh();
    state.now = [2; 32];
    for (seed, frame, channel, code) in [
        (0, 0, 0, 3097),
        (0, 0, 1, 1742),
        (1, 0, 0, 3955),
        (7, 63, 31, 908),
        (4294967295, 40, 17, 7490),
    ] {
        let taken = taken(&state, &plain(seed));
        assert_eq!(taken.samples[frame][channel], code);
    }
}

fn drawn_factors(recipe: &Recipe, programme: u64) -> (u8, u8) {
    let factor = |channel| (number(recipe, 1, channel) % 8) as u8;
    (factor(2 * programme), factor(2 * programme + 1))
}

/// Everything that is drawn can be read.
#[test]
fn what_is_drawn_is_sent() {
    for seed in [0, 1, 77, u32::MAX] {
        let recipe = plain(seed);
        let mut state = State::fresh();
        state.now = [2; 32];
        let taken = taken(&state, &recipe);
        for (i, sample) in taken.samples.as_flattened().iter().enumerate() {
            let code = number(&recipe, 0, i as u64) / 4;
            assert_eq!(i64::from(*sample), code as i64 - 8192);
        }
        assert_eq!(taken.marks, [[0; 32]; 64]);
        for (p, extra) in taken.extra.iter().enumerate() {
            let p = p as u64;
            let factors = drawn_factors(&recipe, p);
            assert_eq!(extra.near, Some(Near { factors, places: 0 }));
            let word = (42..64).fold(0, |word, f| 2 * word + number(&recipe, 2, 64 * p + f) % 2);
            assert_eq!(u64::from(extra.information), word);
        }
        assert_eq!(taken.six, [0x80, 0x01, 0x12, 0x34, 0x56, 0xff]);
        assert_eq!(taken.heard.sync, Sync::One);
    }
}

/// The places, counted from 0, in which a superframe's bits are not those of the same one with nothing turned.
fn turned(recipe: &Recipe) -> HashSet<usize> {
    let sent = |recipe: &Recipe| bits::of_bytes(&recipe.superframe().unwrap());
    let (one, other) = (sent(recipe), sent(&plain(recipe.seed)));
    (0..one.len()).filter(|n| one[*n] != other[*n]).collect()
}

#[test]
fn turned_bits_of_blocks() {
    for rate in [1, 8, 100, 255] {
        let recipe = Recipe { rate, ..plain(9) };
        let mut expected = HashSet::new();
        for n in 0..128 {
            for block in 1..=4 {
                for bit in 1..=63 {
                    let place = 256 * n + 64 * (block - 1) + bit - 1;
                    if number(&recipe, 3, place as u64) % 256 < u64::from(rate) {
                        expected.insert(320 * n + frame::place(block, bit) - 1);
                    }
                }
            }
        }
        assert!(expected.len() > 50);
        assert_eq!(turned(&recipe), expected);
    }
}

#[test]
fn turned_bits_of_scale_words() {
    for scale in [1, 20, 255] {
        let recipe = Recipe { scale, ..plain(10) };
        let mut expected = HashSet::new();
        for p in 0..16 {
            for f in 0..42 {
                if number(&recipe, 2, (64 * p + f) as u64) % 256 < u64::from(scale) {
                    // Programmes 1 and 2 in the first block of A, 9 and 10 in the first of B.
                    let place = frame::place(p % 8 / 2 + 1, 76 + p % 2);
                    expected.insert(320 * (64 * (p / 8) + f) + place - 1);
                }
            }
        }
        assert!(!expected.is_empty());
        assert_eq!(turned(&recipe), expected);
    }
}

/// Up to seven of the 42 bits of a programme may be turned; it says how many are.
#[test]
fn turned_bits_are_told() {
    let mut told = HashSet::new();
    for seed in 0..20 {
        let recipe = Recipe {
            scale: 24,
            ..plain(seed)
        };
        let taken = taken(&State::fresh(), &recipe);
        for (p, extra) in taken.extra.iter().enumerate() {
            let places = (64 * p..64 * p + 42).filter(|n| number(&recipe, 2, *n as u64) % 256 < 24);
            let places = places.count() as u8;
            if places <= 7 {
                let factors = drawn_factors(&recipe, p as u64);
                assert_eq!(extra.near, Some(Near { factors, places }));
                told.insert(places);
            }
        }
    }
    assert_eq!(told.len(), 8);
}

#[test]
fn turned_byte() {
    let at = |place, turned| Recipe {
        place,
        turned,
        ..plain(11)
    };
    assert_eq!(turned(&at(0, 0x81)), HashSet::from([0, 7]));
    assert_eq!(turned(&at(5081, 0x20)), HashSet::from([8 * 5081 + 2]));
    assert_eq!(turned(&at(5119, 0x01)), HashSet::from([40959]));
    assert!(turned(&at(5120, 0xff)).is_empty());
    assert!(turned(&at(65535, 0xff)).is_empty());
}

/// Each value times its power of 31.
fn sum(values: &[u64]) -> u64 {
    let mut power = 1;
    let mut sum = 0;
    for value in values.iter().rev() {
        sum = (sum + power * value) % (1 << 32);
        power = power * 31 % (1 << 32);
    }
    sum
}

/// What a refusal says beside the number and the state: zeros, and lists that are as they were.
fn nothing() -> String {
    let zeros = |count| "0".repeat(count);
    let eight = zeros(16);
    let samples = sum(&[32768 - 21555; 4096]);
    let marks = sum(&[165; 4096]);
    let (numbers, factors, places, six) = (zeros(16), zeros(64), zeros(32), zeros(12));
    let beside = format!("{numbers} {factors} {places} 0 {six} 000 0");
    format!("0 {eight} {eight} {eight} {beside} {samples} {marks}")
}

/// The first words are the radius and the three lengths.
fn line(first: &str, recipe: &Recipe, state: &State) -> String {
    let bytes: String = recipe.bytes().iter().map(|b| format!("{b:02x}")).collect();
    let seed = recipe.seed;
    format!("take {first} {seed} {bytes} {}", state_text(state))
}

/// From document 01, "Numbers given": 1, 2, 3 in this order, and the state that each leaves. No radius is 2, and a full history 9, before 3
/// (document 02, P9 and P7).
#[test]
fn refusals() {
    let good = busy_state();
    let mut wrong = good.clone();
    wrong.after[31] = 9;
    let lost = good.lose().unwrap();
    let mut full = good.clone();
    full.totals.lost = 1_000_000 - 300;
    let damaged = Recipe {
        place: 5081,
        turned: 0xe0,
        ..plain(5)
    };
    for lengths in [
        "0 0 0",
        "5119 2048 2048",
        "5121 2048 2048",
        "5120 2047 2048",
        "5120 2049 2048",
        "5120 2048 0",
        "5120 2048 4096",
        "10240 4096 4096",
    ] {
        for (radius, state) in [
            (2, &good),
            (2, &wrong),
            (2, &full),
            (3, &good),
            (4, &good),
            (4, &full),
            (0, &wrong),
        ] {
            for recipe in [&plain(5), &damaged] {
                let expected = format!("1 {} {}", state_text(state), nothing());
                let first = format!("{radius} {lengths}");
                assert_eq!(answer(&line(&first, recipe, state)), Some(expected));
            }
        }
    }
    let right = "5120 2048 2048";
    for (radius, state) in [
        (2, &wrong),
        (3, &wrong),
        (0, &good),
        (1, &good),
        (4, &wrong),
        (4, &full),
    ]
    .into_iter()
    .chain([4, 5, 127, 128, 254, 255].map(|radius| (radius, &good)))
    {
        for recipe in [&plain(5), &damaged] {
            let expected = format!("2 {} {}", state_text(state), nothing());
            let first = format!("{radius} {right}");
            assert_eq!(answer(&line(&first, recipe, state)), Some(expected));
        }
    }
    for radius in [2, 3] {
        let first = format!("{radius} {right}");
        let expected = format!("3 {} {}", state_text(&lost), nothing());
        assert_eq!(answer(&line(&first, &damaged, &good)), Some(expected));
        let taken = answer(&line(&first, &plain(5), &good)).unwrap();
        assert!(taken.starts_with("0 "));
        for recipe in [&plain(5), &damaged] {
            let expected = format!("9 {} {}", state_text(&full), nothing());
            assert_eq!(answer(&line(&first, recipe, &full)), Some(expected));
        }
    }
}

#[test]
fn answer_of_a_superframe() {
    for (radius, has_4) in [(2, false), (3, true)] {
        let marks = assert_answer(radius);
        assert_eq!(marks.contains(&4), has_4);
    }
}

/// Everything handed out stands in the answer: here labels come, and some programmes' scale words are as near to several. Gives the marks.
fn assert_answer(radius: u8) -> Vec<u64> {
    let mut state = busy_state();
    state.service.position = 8;
    state.service.stage = 8;
    let recipe = Recipe {
        rate: 12,
        scale: 100,
        ..plain(3)
    };
    let (taken, next) = state.take(radius, &recipe.superframe().unwrap());
    let taken = taken.unwrap();
    let hex = |count: fn(&Counts) -> u64| -> String {
        let counts = taken.blocks.iter().map(count);
        counts.map(|count| format!("{count:02x}")).collect()
    };
    let number = |e: &Extra| if e.near.is_some() { '0' } else { '5' };
    let factors = |e: &Extra| match e.near.map(|near| near.factors) {
        Some((left, right)) => format!("0{left}0{right}"),
        None => "0808".to_string(),
    };
    let places = |e: &Extra| match e.near {
        Some(near) => format!("{:02x}", near.places),
        None => "00".to_string(),
    };
    let numbers: String = taken.extra.iter().map(number).collect();
    let factors: String = taken.extra.iter().map(factors).collect();
    let places: String = taken.extra.iter().map(places).collect();
    assert!(numbers.contains('0') && numbers.contains('5'));
    let words: Vec<u64> = taken.extra.iter().map(|e| e.information.into()).collect();
    let labels = taken.heard.labels.unwrap();
    let labels: Vec<u64> = labels.as_flattened().iter().map(|b| (*b).into()).collect();
    // The second half of the room is not lent.
    let samples = taken.samples.as_flattened().iter();
    let mut samples: Vec<u64> = samples.map(|x| (i64::from(*x) + 32768) as u64).collect();
    samples.resize(4096, 32768 - 21555);
    let marks = taken.marks.as_flattened().iter();
    let mut marks: Vec<u64> = marks.map(|mark| (*mark).into()).collect();
    marks.resize(4096, 165);
    let expected = [
        "0".to_string(),
        state_text(&next),
        "0".to_string(),
        hex(|counts| counts.clean),
        hex(|counts| counts.mended),
        hex(|counts| counts.bad),
        numbers,
        factors,
        places,
        sum(&words).to_string(),
        "8001123456ff".to_string(),
        "801".to_string(),
        sum(&labels).to_string(),
        sum(&samples).to_string(),
        sum(&marks).to_string(),
    ];
    let said = answer(&line(&format!("{radius} 5120 2048 2048"), &recipe, &state));
    assert_eq!(said, Some(expected.join(" ")));
    marks
}

/// The word of an answer that has the sum of wrong sync bits, behind the number and the eleven of the state.
const SYNC: usize = 12;

fn byte(word: &str, n: usize) -> usize {
    usize::from_str_radix(&word[2 * n..2 * n + 2], 16).unwrap()
}

/// The place of the byte in which bits are turned, and those bits.
fn turned_in(words: &[&str]) -> (usize, usize) {
    let recipe = words[6];
    let place = 256 * byte(recipe, 10) + byte(recipe, 11);
    (place, byte(recipe, 12))
}

/// The number of each fault that a line may have: a wrong length, no radius, a number of the state out of range, a full history, a wrong
/// sync.
const NUMBERS: [usize; 5] = [1, 2, 2, 9, 3];

/// Which of them a line has, by its words.
fn faults(words: &[&str]) -> [bool; 5] {
    let state = &words[7..18];
    let totals = Read::of(state);
    let (place, turned) = turned_in(words);
    let sync = match place % 40 {
        0 => 0xff,
        1 => 0xe0,
        _ => 0,
    };
    [
        words[2..5] != ["5120", "2048", "2048"],
        !["2", "3"].contains(&words[1]),
        over(state) || totals.wrong(),
        totals.full(),
        place < 5120 && (turned & sync).count_ones() > 2,
    ]
}

/// The answer to a readable `take` line, whose number is that of its first fault.
fn answered(line: &str, faults: [bool; 5]) -> Vec<String> {
    let first = faults.iter().position(|fault| *fault);
    let number = first.map_or(0, |n| NUMBERS[n]);
    let answer = answer(line).unwrap();
    let said: Vec<String> = answer.split(' ').map(str::to_string).collect();
    assert_eq!(said[0], number.to_string(), "{line}");
    assert!(number == 0 || answer.ends_with(&nothing()), "{line}");
    said
}

/// In the systematic lines all faults come alone and together, in every main frame; a sync has every number of wrong bits up to
/// eight, and every bit is the only wrong one; and superframes that are taken bring every reading, number 5, and at each position 0 and 7, with labels and without.
#[test]
fn systematic_lines() {
    let mut unreadable = 0;
    let (mut seen, mut brought, mut far) = (HashSet::new(), HashSet::new(), HashSet::new());
    let (mut frames, mut syncs, mut numbers) = (HashSet::new(), HashSet::new(), HashSet::new());
    for line in calls::all().filter(|line| line.starts_with("take")) {
        if answer(&line).is_none() {
            unreadable += 1;
            continue;
        }
        let words: Vec<&str> = line.split(' ').collect();
        let faults = faults(&words);
        seen.insert((words[1].to_string(), faults));
        let said = answered(&line, faults);
        let (place, turned) = turned_in(&words);
        if said[0] == "3" {
            frames.insert(place / 40);
            numbers.insert(turned.count_ones());
        }
        if said[0] == "0" && place % 40 < 2 && said[SYNC] != "0" {
            assert_eq!(said[SYNC], turned.count_ones().to_string(), "{line}");
            numbers.insert(turned.count_ones());
            if turned.count_ones() == 1 {
                syncs.insert((place % 40, turned));
            }
        }
        if said[0] == "0" {
            let readings = (0..3).filter(|n| said[SYNC + 1 + n] != "0".repeat(16));
            brought.extend(readings.map(|reading| format!("reading {reading}")));
            brought.insert(format!("5 {}", said[SYNC + 4].contains('5')));
            brought.insert(said[SYNC + 9].clone());
            far.extend((0..16).map(|p| (&said[SYNC + 4][p..=p] == "5", byte(&said[SYNC + 6], p))));
        }
    }
    // Two that are too short, one without a radius, four with a word that is none, one for each other word before the state; one without
    // totals, four with a number that is none, and one for each other word of them.
    assert_eq!(unreadable, 2 + 1 + 4 + 5 + 1 + 4 + 3);
    // Each radius, and each of five numbers that are none, with a length, the state and a sync right and wrong.
    let room: HashSet<_> = seen.iter().filter(|(_, faults)| !faults[3]).collect();
    assert_eq!(room.len(), 7 * 8);
    // A full history with all of these, where one number that is no radius does.
    let full: HashSet<_> = seen
        .iter()
        .map(|(_, faults)| faults)
        .filter(|f| f[3])
        .collect();
    assert_eq!(full.len(), 16);
    assert_eq!((frames.len(), syncs.len(), numbers.len()), (128, 11, 8));
    // Three readings; with number 5 and without; nine positions with 0 and 7, and at the last one labels too.
    assert_eq!(brought.len(), 3 + 2 + 18 + 2);
    // Scale words are any number of places away; with number 5 it is 0.
    assert!((0..=15).all(|places| far.contains(&(false, places))));
    assert_eq!(far.iter().filter(|(five, _)| *five).count(), 1);
    assert!(far.contains(&(true, 0)));
}

/// In many systematic lines at radius 3 blocks are mended with 3: some of those that the same line at radius 2 has as bad. The marks are
/// then others, but where no channel has a factor.
#[test]
fn systematic_lines_with_mark_4() {
    let mut count = [0, 0];
    for line in calls::all().filter(|line| line.starts_with("take 3 ")) {
        let said = |line: &str| -> Vec<String> {
            let answer = answer(line).unwrap_or_default();
            answer.split(' ').map(str::to_string).collect()
        };
        let (wide, ordinary) = (said(&line), said(&line.replacen('3', "2", 1)));
        assert_eq!(wide[0], ordinary[0]);
        if wide[0] != "0" || wide[SYNC + 2] == ordinary[SYNC + 2] {
            assert_eq!(wide, ordinary);
            continue;
        }
        for n in 0..8 {
            let of = |said: &[String], reading: usize| byte(&said[SYNC + 1 + reading], n);
            assert_eq!(of(&wide, 0), of(&ordinary, 0));
            let more = of(&wide, 1) - of(&ordinary, 1);
            assert_eq!(of(&wide, 2) + more, of(&ordinary, 2));
        }
        // All but the counts and the totals of mended and bad blocks and the sums of samples and marks.
        let others = |said: &[String]| {
            let (state, clean) = (&said[..SYNC - 2], &said[SYNC..SYNC + 2]);
            [state, clean, &said[SYNC + 4..SYNC + 11]].concat()
        };
        assert_eq!(others(&wide), others(&ordinary));
        let none = line.split(' ').nth(7) == Some(&"08".repeat(32));
        assert_eq!(wide[SYNC + 12] == ordinary[SYNC + 12], none);
        count[usize::from(none)] += 1;
    }
    assert!(count[0] > 100 && count[1] > 0, "{count:?}");
}

/// Of the random lines some are refused with each number, and more than half are not.
#[test]
fn random_lines() {
    let mut count = [0; 10];
    let mut radii = HashSet::new();
    for line in calls::random(1, 30000).filter(|line| line.starts_with("take")) {
        let words: Vec<&str> = line.split(' ').collect();
        let faults = faults(&words);
        let said = answered(&line, faults);
        count[said[0].parse::<usize>().unwrap()] += 1;
        radii.insert((words[1].to_string(), said[0].clone()));
    }
    assert!(count[..4].iter().all(|times| *times > 10) && count[9] > 5);
    assert!(2 * count[0] > count.iter().sum());
    for radius in ["2", "3"] {
        let said = |number: &str| radii.contains(&(radius.to_string(), number.to_string()));
        assert!(["0", "1", "2", "3"].into_iter().all(said));
    }
    assert!(radii.contains(&("4".to_string(), "2".to_string())));
}
