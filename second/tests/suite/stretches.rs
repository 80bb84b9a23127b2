//! Stretches that need an ear, and the lines of them.

use second::hand_on::stretches::{seconds, Stretch, Stretches, Trouble};
use second::random::Random;
use Trouble::{Bad, Lost, NoFactor};

/// The lines of a reel of this many pairs, all untroubled but these.
fn lines(pairs: usize, troubled: &[(usize, Trouble)]) -> Vec<String> {
    let stretches = stretches(pairs, troubled);
    stretches.iter().map(Stretch::line).collect()
}

fn stretches(pairs: usize, troubled: &[(usize, Trouble)]) -> Vec<Stretch> {
    let mut all = vec![None; pairs];
    for (pair, trouble) in troubled {
        all[*pair] = Some(*trouble);
    }
    let mut gatherer = Stretches::default();
    let mut stretches: Vec<Stretch> = all.into_iter().filter_map(|t| gatherer.pair(t)).collect();
    stretches.extend(gatherer.end());
    stretches
}

#[test]
fn eight_decimals() {
    for (pair, text) in [
        (0, "0.00000000"),
        (1, "0.00003125"),
        (3, "0.00009375"),
        (384, "0.01200000"),
        (31_999, "0.99996875"),
        (32_000, "1.00000000"),
        (32_001, "1.00003125"),
        (64_000_000, "2000.00000000"),
    ] {
        assert_eq!(seconds(pair), text);
    }
}

/// Lost comes before mark 3 (a lost superframe has no marks), mark 3 before mark 2.
#[test]
fn kinds() {
    for (marks, trouble) in [
        ([0, 0], None),
        ([0, 1], None),
        ([1, 0], None),
        ([4, 1], None),
        ([0, 2], Some(Bad)),
        ([2, 1], Some(Bad)),
        ([2, 2], Some(Bad)),
        ([2, 4], Some(Bad)),
        ([2, 3], Some(NoFactor)),
        ([3, 2], Some(NoFactor)),
        ([3, 0], Some(NoFactor)),
        ([3, 3], Some(NoFactor)),
    ] {
        assert_eq!(Trouble::of_marks(marks), trouble, "{marks:?}");
    }
}

#[test]
fn words_of_a_line() {
    let line = |bad, no_factor, lost| {
        let stretch = Stretch {
            first: 32,
            last: 63,
            bad,
            no_factor,
            lost,
        };
        stretch.line()
    };
    let times = "0.00100000\t0.00200000";
    assert_eq!(line(1, 0, 0), format!("{times}\tbad 1"));
    assert_eq!(line(0, 2, 0), format!("{times}\tno factor 2"));
    assert_eq!(line(0, 0, 3), format!("{times}\tlost 3"));
    assert_eq!(line(1, 0, 3), format!("{times}\tbad 1, lost 3"));
    let all = "bad 22, no factor 192, lost 64";
    assert_eq!(line(22, 192, 64), format!("{times}\t{all}"));
}

#[test]
fn nothing_troubled() {
    assert!(lines(0, &[]).is_empty());
    assert!(lines(10_000, &[]).is_empty());
}

#[test]
fn one_pair() {
    assert_eq!(lines(1, &[(0, Lost)]), ["0.00000000\t0.00003125\tlost 1"]);
    let line = "0.00021875\t0.00025000\tbad 1";
    // Up to the end, and with fewer than 3,200, just 3,200 and more untroubled pairs before it.
    for pairs in [8, 9, 3207, 3208, 3209, 10_000] {
        assert_eq!(lines(pairs, &[(7, Bad)]), [line]);
    }
}

#[test]
fn between_two_3199_and_3200() {
    let one = "0.00000000\t0.10003125\tbad 1, lost 1";
    assert_eq!(lines(3201, &[(0, Bad), (3200, Lost)]), [one]);
    assert_eq!(
        lines(3202, &[(0, Bad), (3201, Lost)]),
        [
            "0.00000000\t0.00003125\tbad 1",
            "0.10003125\t0.10006250\tlost 1"
        ]
    );
}

/// What counts is the untroubled pairs in a row, not their sum, and not how long the stretch is.
#[test]
fn untroubled_pairs_in_a_row() {
    let every_third_thousand = [1, 3001, 6001, 9001].map(|pair| (pair, NoFactor));
    assert_eq!(
        lines(9500, &every_third_thousand),
        ["0.00003125\t0.28131250\tno factor 4"]
    );
}

/// The counts start again with each stretch.
#[test]
fn counts_of_each() {
    let troubled = [
        (10, NoFactor),
        (11, Bad),
        (12, Bad),
        (5000, Lost),
        (5001, Bad),
        (9000, NoFactor),
    ];
    assert_eq!(
        lines(20_000, &troubled),
        [
            "0.00031250\t0.00040625\tbad 2, no factor 1",
            "0.15625000\t0.15631250\tbad 1, lost 1",
            "0.28125000\t0.28128125\tno factor 1",
        ]
    );
}

/// A troubled pair begins a stretch where the 3,200 pairs before it are untroubled, or it has none troubled before it
/// at all; it ends one where the same holds behind it.
#[test]
fn beginnings_and_ends_by_their_neighbours() {
    let mut random = Random::stream(&[18]);
    for count in [1, 2, 10, 200] {
        let mut troubled = Vec::new();
        let mut pair = random.index(5000);
        for _ in 0..count {
            troubled.push((pair, random.one_of(&[Bad, NoFactor, Lost])));
            pair += random.one_of(&[1, 2, 70, 3199, 3200, 3201, 3202, 9000]);
        }
        let pairs = pair;
        let is_troubled = |range: std::ops::Range<usize>| {
            let place = |n| troubled.partition_point(|(pair, _)| *pair < n);
            place(range.start) < place(range.end)
        };
        let first = |pair: &usize| !is_troubled(pair.saturating_sub(3200)..*pair);
        let last = |pair: &usize| !is_troubled(pair + 1..pair + 3201);
        let all: Vec<usize> = troubled.iter().map(|(pair, _)| *pair).collect();
        let firsts: Vec<usize> = all.iter().copied().filter(first).collect();
        let lasts: Vec<usize> = all.iter().copied().filter(last).collect();
        let found = stretches(pairs, &troubled);
        let of = |end: fn(&Stretch) -> u64| -> Vec<usize> {
            found.iter().map(|stretch| end(stretch) as usize).collect()
        };
        assert_eq!(of(|stretch| stretch.first), firsts);
        assert_eq!(of(|stretch| stretch.last), lasts);
        let counted: u64 = found.iter().map(|s| s.bad + s.no_factor + s.lost).sum();
        assert_eq!(counted, all.len() as u64);
    }
}
