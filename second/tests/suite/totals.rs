//! The totals of each programme: histories, edges, resets, the text, and the lines that ask for them (document 02, P7).

use crate::hand::{
    block_of, busy_state, header, listing, make, reel, superframes, Superframe, SYNC_1,
};
use crate::near::Code;
use second::answer::answer;
use second::bits;
use second::calls;
use second::frame::{self, Letter};
use second::numbers::Refusal;
use second::superframe::State;
use second::totals::Totals;
use second::word::Reading;
use std::collections::{HashMap, HashSet};

/// The three numbers of each programme: clean, mended, bad.
type Blocks = [[u64; 3]; 16];

/// What stands in a state's totals: taken, lost, and the blocks.
fn numbers(totals: &Totals) -> (u64, u64, Blocks) {
    let kinds = [totals.clean, totals.mended, totals.bad];
    let blocks = std::array::from_fn(|p| kinds.map(|kind| u64::from(kind[p])));
    (totals.taken.into(), totals.lost.into(), blocks)
}

/// The blocks of a superframe, counted main frame by main frame, each block held against the multiples of the generator; None where one
/// of the syncs is too far from its word.
fn counted(code: &Code, radius: u8, bytes: &[u8]) -> Option<Blocks> {
    let mut blocks = [[0; 3]; 16];
    for (n, forty) in bytes.chunks(40).enumerate() {
        let sync = u32::from(forty[0]) << 3 | u32::from(forty[1]) >> 5;
        // The word of A, and of B all its bits turned.
        let word = if n < 64 { 0b11100010010 } else { 0b00011101101 };
        if (sync ^ word).count_ones() > 2 {
            return None;
        }
        let letter = if n < 64 { Letter::A } else { Letter::B };
        for (b, block) in frame::read(letter, forty)
            .unwrap()
            .blocks
            .iter()
            .enumerate()
        {
            let kind = match code.read(radius.into(), block).0 {
                Reading::Clean => 0,
                Reading::Mended(_) => 1,
                Reading::Bad => 2,
            };
            let first = 8 * (n / 64) + 2 * b;
            blocks[first][kind] += 1;
            blocks[first + 1][kind] += 1;
        }
    }
    Some(blocks)
}

/// A history that is kept beside the state.
#[derive(Clone, Default)]
struct History {
    taken: u64,
    lost: u64,
    blocks: Blocks,
}

impl History {
    fn add(&mut self, counted: Option<Blocks>) {
        let Some(counted) = counted else {
            self.lost += 1;
            return;
        };
        self.taken += 1;
        for (sum, more) in self.blocks.iter_mut().zip(counted) {
            for (sum, more) in sum.iter_mut().zip(more) {
                *sum += more;
            }
        }
    }

    fn numbers(&self) -> (u64, u64, Blocks) {
        (self.taken, self.lost, self.blocks)
    }
}

/// A reel with blocks of every reading, some superframes lost.
fn damaged() -> Vec<u8> {
    make("11 24 upto=5%80 rate=40 syncs=1%40 sync=3%25 noise@7 service=1%20")
}

/// After each call every number is the count over the superframes given so far, at the radius at which each was taken; a programme's
/// blocks are 64 times the superframes taken.
#[test]
fn every_number_is_the_count_so_far() {
    let code = Code::new();
    let reel = damaged();
    let radii: [fn(usize) -> u8; 3] = [|_| 2, |_| 3, |n| 2 + n as u8 % 2];
    for radius in radii {
        let (mut state, mut history) = (State::fresh(), History::default());
        assert_eq!(numbers(&state.totals), history.numbers());
        for (n, bytes) in superframes(&reel).into_iter().enumerate() {
            let (answer, next) = state.take(radius(n), bytes);
            let counted = counted(&code, radius(n), bytes);
            assert_eq!(answer.is_ok(), counted.is_some());
            history.add(counted);
            assert_eq!(numbers(&next.totals), history.numbers());
            let sums = history.blocks.map(|kinds| kinds.iter().sum::<u64>());
            assert_eq!(sums, [64 * history.taken; 16]);
            state = next;
        }
        assert!(history.taken > 8 && history.lost > 2);
        assert!(history
            .blocks
            .as_flattened()
            .iter()
            .all(|count| *count > 20));
    }
}

/// A block at each of the eight positions, by hand: it counts for two programmes and for no other.
#[test]
fn a_block_counts_for_two_programmes() {
    for b in 0..8 {
        for (radius, wrong, kinds) in [
            (2, 0, [64, 0, 0]),
            (2, 1, [63, 1, 0]),
            (2, 2, [63, 1, 0]),
            (2, 3, [63, 0, 1]),
            (3, 2, [63, 1, 0]),
            (3, 3, [63, 1, 0]),
            (3, 4, [63, 0, 1]),
        ] {
            let mut superframe = Superframe::zero();
            superframe.blocks[7 * b][b] = block_of([1, -1, 8191, -8192], [0, 0]);
            for place in 0..wrong {
                superframe.blocks[7 * b][b][15 * place] ^= 1;
            }
            let (taken, next) = State::fresh().take(radius, &superframe.bytes());
            assert!(taken.is_ok());
            let mut blocks = [[64, 0, 0]; 16];
            blocks[2 * b] = kinds;
            blocks[2 * b + 1] = kinds;
            assert_eq!(numbers(&next.totals), (1, 0, blocks));
            // Onto what was counted before.
            let before = busy_state();
            let (_, next) = before.take(radius, &superframe.bytes());
            let (taken, lost, mut sums) = numbers(&before.totals);
            for (sum, more) in sums
                .as_flattened_mut()
                .iter_mut()
                .zip(blocks.as_flattened())
            {
                *sum += more;
            }
            assert_eq!(numbers(&next.totals), (taken + 1, lost, sums));
        }
    }
}

/// A superframe with three wrong bits in its first sync.
fn lost() -> Vec<u8> {
    let mut bytes = Superframe::zero().bytes();
    bytes[0] ^= 0x0d;
    bytes
}

/// A lost superframe adds to the lost number only, through either call.
#[test]
fn a_loss_adds_to_the_lost_number_only() {
    let state = busy_state();
    let (taken, lost_before, blocks) = numbers(&state.totals);
    for radius in [2, 3] {
        let (answer, next) = state.take(radius, &lost());
        assert_eq!(answer, Err(Refusal::Sync));
        assert_eq!(numbers(&next.totals), (taken, lost_before + 1, blocks));
        assert_eq!(state.lose(), Ok(next));
    }
}

/// Totals of so many superframes, sums right, all blocks bad but a few.
fn totals(taken: u32, lost: u32) -> Totals {
    let few = taken.min(3);
    Totals {
        taken,
        lost,
        clean: [few; 16],
        mended: std::array::from_fn(|p| few * (p as u32 + 1)),
        bad: std::array::from_fn(|p| 64 * taken - few * (p as u32 + 2)),
    }
}

fn with(totals: Totals) -> State {
    State {
        totals,
        ..busy_state()
    }
}

/// The numbers of the calls for this state: lose, reset, six service bytes, a good superframe and one with a wrong sync. Whatever is
/// refused, but for number 3, leaves the state as it was.
fn asked(state: &State) -> [u8; 5] {
    fn number<T>(answer: &Result<T, Refusal>) -> u8 {
        answer.as_ref().err().map_or(0, |refusal| refusal.number())
    }
    let take = |bytes: &[u8]| {
        let (answer, next) = state.take(2, bytes);
        let number = number(&answer);
        assert_eq!(next == *state, number != 0 && number != 3);
        number
    };
    [
        number(&state.lose()),
        number(&state.reset()),
        number(&state.take_service(&[0; 6], &bits::of_text(SYNC_1))),
        take(&Superframe::zero().bytes()),
        take(&lost()),
    ]
}

/// 1,000,000 superframes are a full history; one less has room for one; one more is out of range.
#[test]
fn full_histories() {
    for given in [999_999, 1_000_000, 1_000_001] {
        for taken in [0, 1, 500_000, given - 1, given] {
            let state = with(totals(taken, given - taken));
            let expected = match given {
                999_999 => [0, 0, 0, 0, 3],
                1_000_000 => [9, 0, 0, 9, 9],
                _ => [2; 5],
            };
            assert_eq!(asked(&state), expected, "{taken} of {given}");
        }
    }
    // The last that there is room for, taken and lost; then the history is full.
    let state = with(totals(999_000, 999));
    let (_, next) = state.take(2, &Superframe::zero().bytes());
    assert_eq!((next.totals.taken, next.totals.lost), (999_001, 999));
    assert_eq!(asked(&next), [9, 0, 0, 9, 9]);
    let next = state.lose().unwrap();
    assert_eq!((next.totals.taken, next.totals.lost), (999_000, 1000));
    assert_eq!(asked(&next), [9, 0, 0, 9, 9]);
}

/// From a fresh state 1,000,000 superframes can be given, and not one more; after a reset as many again.
#[test]
fn a_million_losses() {
    let mut state = State::fresh();
    for _ in 0..2 {
        for lost in 0..1_000_000 {
            assert_eq!(state.totals, totals(0, lost));
            state = state.lose().unwrap();
        }
        assert_eq!(state.lose(), Err(Refusal::Full));
        assert_eq!(state.totals, totals(0, 1_000_000));
        state = state.reset().unwrap();
        assert_eq!(state, State::fresh());
    }
}

/// Number 9 comes after 1 and 2 and before 3; the state and the lent lists stay as they were.
#[test]
fn nine_after_two_and_before_three() {
    let full = with(totals(700_000, 300_000));
    let mut factor = full.clone();
    factor.now[0] = 9;
    let mut stage = full.clone();
    stage.service.stage = 9;
    let mut sum = full.clone();
    sum.totals.bad[15] -= 1;
    let good = Superframe::zero().bytes();
    for bytes in [good.clone(), lost()] {
        for (state, radius, length, number) in [
            (&full, 2, 5120, 9),
            (&full, 3, 5120, 9),
            (&full, 4, 5120, 2),
            (&full, 0, 5119, 1),
            (&full, 2, 5119, 1),
            (&factor, 2, 5120, 2),
            (&stage, 3, 5120, 2),
            (&sum, 2, 5120, 2),
            (&sum, 1, 5120, 2),
            (&sum, 3, 0, 1),
        ] {
            let (mut samples, mut marks) = ([-77; 2048], [77; 2048]);
            let (answer, next) =
                state.take_into(radius, &bytes[..length], &mut samples, &mut marks);
            assert_eq!(answer.unwrap_err().number(), number);
            assert_eq!((&next, samples, marks), (state, [-77; 2048], [77; 2048]));
        }
        for (samples, marks) in [(2047, 2048), (2048, 2049)] {
            let (mut samples, mut marks) = (vec![0; samples], vec![0; marks]);
            let (answer, next) = full.take_into(2, &bytes, &mut samples, &mut marks);
            assert_eq!((answer, next), (Err(Refusal::Length), full.clone()));
        }
    }
    assert_eq!(full.lose(), Err(Refusal::Full));
    for wrong in [factor, stage, sum] {
        assert_eq!(asked(&wrong), [2; 5]);
    }
}

/// The numbers of a kind.
fn kind(totals: &mut Totals, n: usize) -> &mut [u32; 16] {
    [&mut totals.clean, &mut totals.mended, &mut totals.bad]
        .into_iter()
        .nth(n)
        .unwrap()
}

/// Each number of each programme, one too many and one too few; the superframes likewise. A block moved from one kind to
/// another is no fault, nor is it where two programmes of a block differ.
#[test]
fn sums_one_off() {
    let right = totals(5000, 5);
    assert_eq!(asked(&with(right.clone())), [0, 0, 0, 0, 3]);
    for p in 0..16 {
        for n in 0..3 {
            for off in [1, u32::MAX] {
                let mut wrong = right.clone();
                let number = &mut kind(&mut wrong, n)[p];
                *number = number.wrapping_add(off);
                assert_eq!(asked(&with(wrong.clone())), [2; 5], "programme {}", p + 1);
                let number = &mut kind(&mut wrong, (n + 1) % 3)[p];
                *number = number.wrapping_sub(off);
                assert_eq!(asked(&with(wrong)), [0, 0, 0, 0, 3]);
            }
        }
    }
    for taken in [0, 4999, 5001] {
        let wrong = Totals {
            taken,
            ..right.clone()
        };
        assert_eq!(asked(&with(wrong)), [2; 5]);
    }
    // The lost ones are in no sum.
    for lost in [0, 4, 6, 995_000 - 1] {
        let other = Totals {
            lost,
            ..right.clone()
        };
        assert_eq!(asked(&with(other)), [0, 0, 0, 0, 3]);
    }
}

/// Sums that are right in 32 bits alone.
#[test]
fn sums_that_do_not_fit_in_32_bits() {
    let right = totals(5000, 5);
    let mut all = Vec::new();
    for n in 0..3 {
        let mut wrong = right.clone();
        kind(&mut wrong, n)[6] = u32::MAX;
        kind(&mut wrong, (n + 1) % 3)[6] = 320_001;
        kind(&mut wrong, (n + 2) % 3)[6] = 0;
        all.push(wrong);
    }
    // 2^26 times 64 is 2^32.
    let zero = totals(0, 0);
    for (totals, taken, lost) in [
        (&right, 5000 + (1 << 26), 5),
        (&right, 5000, u32::MAX),
        (&right, 5000, u32::MAX - 4999),
        (&right, 5000, u32::MAX - 4998),
        (&zero, 1 << 26, 0),
        (&zero, 1 << 26, u32::MAX - (1 << 26) + 1),
        (&zero, 1 << 26, u32::MAX - (1 << 26) + 1_000_001),
        (&zero, 0, u32::MAX),
    ] {
        all.push(Totals {
            taken,
            lost,
            ..totals.clone()
        });
    }
    for wrong in all {
        assert_eq!(asked(&with(wrong.clone())), [2; 5], "{wrong:?}");
    }
}

/// All that is no total stays as it was given, full or not, and in places that carry nothing too.
#[test]
fn reset_clears_the_totals_alone() {
    let fresh = State::fresh();
    assert_eq!(fresh.reset(), Ok(fresh));
    for before in [totals(1, 0), totals(0, 1), totals(600_000, 400_000)] {
        let mut state = with(before);
        state.service.group[20..].fill(200);
        state.service.labels[9].fill(201);
        let mut expected = state.clone();
        expected.totals = totals(0, 0);
        assert_eq!(numbers(&expected.totals), (0, 0, [[0; 3]; 16]));
        assert_eq!(state.reset(), Ok(expected));
    }
    for field in 0..4 {
        let mut state = busy_state();
        match field {
            0 => state.now[3] = 9,
            1 => state.after[30] = 255,
            2 => state.service.position = 9,
            _ => state.service.stage = 9,
        }
        assert_eq!(state.reset(), Err(Refusal::Range));
    }
}

/// A reset within a run starts the count anew there; nothing else that comes after it is changed.
#[test]
fn reset_starts_a_new_history() {
    let code = Code::new();
    let reel = damaged();
    let (mut plain, mut state, mut history) = (State::fresh(), State::fresh(), History::default());
    for (n, bytes) in superframes(&reel).into_iter().enumerate() {
        if [5, 6, 13].contains(&n) {
            state = state.reset().unwrap();
            history = History::default();
        }
        let (answer, next) = state.take(3, bytes);
        let (expected, other) = plain.take(3, bytes);
        assert_eq!(answer, expected);
        history.add(counted(&code, 3, bytes));
        assert_eq!(numbers(&next.totals), history.numbers());
        (state, plain) = (next, other);
        let same = State {
            totals: plain.totals.clone(),
            ..state.clone()
        };
        assert_eq!(same, plain);
    }
    assert_eq!(history.taken + history.lost, 24 - 13);
    assert_eq!(plain.totals.given(), 24);
}

/// Six service bytes are no superframe.
#[test]
fn service_bytes_add_nothing() {
    for before in [totals(0, 0), totals(80, 9), totals(999_999, 1)] {
        let state = with(before.clone());
        for sync in ["0000010111001111", "0000010111111111", "0000000000000000"] {
            let (_, next) = state.take_service(&[7; 6], &bits::of_text(sync)).unwrap();
            assert_eq!(next.totals, before);
        }
    }
}

fn text_at(radius: u8, reel: &[u8]) -> String {
    let mut text = Vec::new();
    second::totals::write(radius, reel, &mut text).unwrap();
    String::from_utf8(text).unwrap()
}

/// The text that has these numbers.
fn text_of(history: &History, end: &str) -> String {
    let (taken, lost, blocks) = history.numbers();
    let mut lines = vec![
        format!("superframes {}", taken + lost),
        format!("lost {lost}"),
    ];
    for (p, [clean, mended, bad]) in blocks.iter().enumerate() {
        let number = p + 1;
        lines.push(format!(
            "programme {number} clean {clean} mended {mended} bad {bad}"
        ));
    }
    lines.push(format!("end {end}"));
    lines.join("\n") + "\n"
}

/// The text letter by letter: a good superframe, a lost one, and one with three wrong places in a block of programmes 15 and 16 and one
/// in a block of programmes 1 and 2.
#[test]
fn text_by_hand() {
    let mut third = Superframe::zero();
    third.blocks[63][7][40..43].fill(1);
    third.blocks[0][0][62] = 1;
    let reel = reel(&[Superframe::zero().bytes(), lost(), third.bytes()]);
    for (radius, last) in [(2, "mended 0 bad 1"), (3, "mended 1 bad 0")] {
        let mut expected = "superframes 3\nlost 1\n".to_string();
        for p in 1..=2 {
            expected += &format!("programme {p} clean 127 mended 1 bad 0\n");
        }
        for p in 3..=14 {
            expected += &format!("programme {p} clean 128 mended 0 bad 0\n");
        }
        for p in 15..=16 {
            expected += &format!("programme {p} clean 127 {last}\n");
        }
        assert_eq!(text_at(radius, &reel), expected.clone() + "end ok\n");
        let longer = [&reel[..], &[0; 5000]].concat();
        assert_eq!(text_at(radius, &longer), expected + "end ok\n");
    }
}

/// Of a damaged reel the counts of blocks read by other means; in the listing those of radius 2, each block once.
#[test]
fn text_of_a_damaged_reel() {
    let code = Code::new();
    let reel = damaged();
    for radius in [2, 3] {
        let mut history = History::default();
        for bytes in superframes(&reel) {
            history.add(counted(&code, radius, bytes));
        }
        assert_eq!(text_at(radius, &reel), text_of(&history, "ok"));
        if radius == 2 {
            let sum = |kind: usize| -> u64 {
                let all = history.blocks.iter().map(|kinds| kinds[kind]);
                all.sum::<u64>() / 2
            };
            let [clean, mended, bad] = [0, 1, 2].map(sum);
            let counts = format!("\nclean {clean}\nmended {mended}\nbad {bad}\nend ok\n");
            assert!(listing(&reel).ends_with(&counts));
        }
    }
}

/// Refused and short as the listing is.
#[test]
fn text_of_other_reels() {
    let clean = |taken: u64| History {
        taken,
        lost: 0,
        blocks: [[64 * taken, 0, 0]; 16],
    };
    for radius in [2, 3] {
        let text = |words: &str| text_at(radius, &make(words));
        assert_eq!(text("2 3"), text_of(&clean(3), "ok"));
        assert_eq!(text("2 3 short=1"), text_of(&clean(2), "short"));
        assert_eq!(text("2 3 cut=16"), text_of(&clean(0), "short"));
        assert_eq!(text("2 3 count=2 gap=9"), text_of(&clean(2), "ok"));
        assert_eq!(text("2 0"), text_of(&clean(0), "ok"));
        for fault in ["count=1000001", "first=15", "summary=1", "cut=15"] {
            assert_eq!(text(&format!("2 3 {fault}")), "refused 8\n");
        }
        assert_eq!(text_at(radius, &header([0, 15, 0, 0])), "refused 8\n");
    }
}

/// The words of a line that are its state: 11 of them.
fn state_words<'a>(words: &[&'a str]) -> Option<Vec<&'a str>> {
    let first = match words[0] {
        "lose" | "reset" | "service" => 1,
        "take" => 7,
        _ => return None,
    };
    words.get(first..first + 11).map(<[&str]>::to_vec)
}

/// The totals of a state's words, in numbers that are large enough for every sum.
pub struct Read {
    pub taken: u64,
    pub lost: u64,
    pub kinds: [[u64; 16]; 3],
}

impl Read {
    pub fn of(state: &[&str]) -> Read {
        let numbers = |word: &str| -> [u64; 16] {
            assert_eq!(word.len(), 128);
            std::array::from_fn(|p| u64::from_str_radix(&word[8 * p..8 * p + 8], 16).unwrap())
        };
        Read {
            taken: state[6].parse().unwrap(),
            lost: state[7].parse().unwrap(),
            kinds: [state[8], state[9], state[10]].map(numbers),
        }
    }

    /// By how much each programme has too many blocks.
    pub fn off(&self) -> [i64; 16] {
        std::array::from_fn(|p| {
            let sum: u64 = self.kinds.iter().map(|kind| kind[p]).sum();
            sum as i64 - 64 * self.taken as i64
        })
    }

    pub fn given(&self) -> u64 {
        self.taken + self.lost
    }

    pub fn wrong(&self) -> bool {
        self.off() != [0; 16] || self.given() > 1_000_000
    }

    pub fn full(&self) -> bool {
        self.given() == 1_000_000
    }
}

/// Whether a number of the first four words is over 8.
pub fn over(state: &[&str]) -> bool {
    let bytes = |word: &str| {
        let digits: Vec<u8> = word.bytes().collect();
        digits.chunks(2).any(|two| two[0] != b'0' || two[1] > b'8')
    };
    state[..4].iter().any(|word| bytes(word))
}

/// The number in the answer to a line that has a state. The totals in the answer are held against the rules, and so is the number, but
/// for that of `take`.
fn held(line: &str) -> Option<String> {
    let words: Vec<&str> = line.split(' ').collect();
    let state = state_words(&words)?;
    let answer = answer(line)?;
    let said: Vec<&str> = answer.split(' ').collect();
    let number = said[0];
    let next = match (words[0], number) {
        ("service", "0") => &said[4..15],
        _ => &said[1..12],
    };
    let before = Read::of(&state);
    let range = over(&state) || before.wrong();
    match words[0] {
        "reset" | "service" => assert_eq!(number, if range { "2" } else { "0" }, "{line}"),
        "lose" if range => assert_eq!(number, "2", "{line}"),
        "lose" => assert_eq!(number, if before.full() { "9" } else { "0" }, "{line}"),
        _ => {}
    }
    let after = Read::of(next);
    let (mut taken, mut lost, mut kinds) = (before.taken, before.lost, before.kinds);
    match (words[0], number) {
        ("take", "3") | ("lose", "0") => lost += 1,
        ("reset", "0") => (taken, lost, kinds) = (0, 0, [[0; 16]; 3]),
        ("take", "0") => {
            taken += 1;
            for (kind, word) in kinds.iter_mut().zip(&said[13..16]) {
                for (p, sum) in kind.iter_mut().enumerate() {
                    let b = p / 2;
                    *sum += u64::from_str_radix(&word[2 * b..2 * b + 2], 16).unwrap();
                }
            }
        }
        ("service", "0") => {}
        _ => assert_eq!(next, state),
    }
    assert_eq!((after.taken, after.lost, after.kinds), (taken, lost, kinds));
    if words[0] == "reset" {
        assert_eq!(next[..6], state[..6]);
    }
    Some(number.to_string())
}

/// The name of the call.
fn asks(line: &str) -> &str {
    line.split(' ').next().unwrap()
}

/// In the systematic lines every call has states at each edge of the totals.
#[test]
fn systematic_lines() {
    let mut seen: HashMap<&str, HashSet<String>> = HashMap::new();
    let mut count: HashMap<(String, String), usize> = HashMap::new();
    let lines: Vec<String> = calls::all().collect();
    for line in &lines {
        let Some(number) = held(line) else {
            continue;
        };
        *count.entry((asks(line).to_string(), number)).or_default() += 1;
        let words: Vec<&str> = line.split(' ').collect();
        let state = state_words(&words).unwrap();
        let totals = Read::of(&state);
        let seen = seen.entry(asks(line)).or_default();
        if over(&state) {
            seen.insert(format!("over, full {}", totals.full()));
            continue;
        }
        let off = totals.off();
        let wrong: Vec<usize> = (0..16).filter(|p| off[*p] != 0).collect();
        if wrong.is_empty() {
            let given = totals.given();
            let part = match (totals.taken, totals.lost) {
                (_, 0) => "taken",
                (0, _) => "lost",
                _ => "both",
            };
            if [0, 1, 999_999, 1_000_000, 1_000_001].contains(&given) {
                seen.insert(format!("{given} {part}"));
            }
            if given >= 1 << 32 {
                seen.insert("given past 32 bits".to_string());
            }
        }
        if let [p] = wrong[..] {
            if off[p].abs() == 1 {
                seen.insert(format!("programme {} by {}", p + 1, off[p]));
            }
            seen.insert(format!("one programme, full {}", totals.full()));
            if off[p] == 1 << 32 {
                seen.insert(format!("past 32 bits by {p}"));
            }
        }
        if wrong.len() == 16 && off.iter().all(|off| off.abs() == 64) {
            seen.insert(format!("taken by {}", off[0]));
        }
    }
    for name in ["lose", "reset", "service", "take"] {
        let seen = &seen[name];
        for what in [
            "over, full false",
            "0 taken",
            "1 taken",
            "1 lost",
            "999999 taken",
            "999999 lost",
            "999999 both",
            "1000000 taken",
            "1000000 lost",
            "1000000 both",
            "1000001 taken",
            "1000001 lost",
            "1000001 both",
            "given past 32 bits",
            "one programme, full true",
            "one programme, full false",
            "past 32 bits by 0",
            "past 32 bits by 15",
            "taken by 64",
            "taken by -64",
        ] {
            assert!(seen.contains(what), "{name}: {what}");
        }
        for p in [1, 8, 16] {
            for by in ["1", "-1"] {
                assert!(seen.contains(&format!("programme {p} by {by}")), "{name}");
            }
        }
    }
    assert!(seen["take"].contains("over, full true"));
    for (name, numbers) in [
        ("lose", "0 2 9"),
        ("reset", "0 2"),
        ("service", "0 2"),
        ("take", "0 1 2 3 9"),
    ] {
        for number in numbers.split(' ') {
            assert!(count[&(name.to_string(), number.to_string())] > 3);
        }
    }
}

/// In these lines each kind of blocks is one too many and one too few in programmes 1, 8 and 16: nothing else differs from totals whose
/// sums are right.
#[test]
fn systematic_lines_one_off() {
    let mut totals: Vec<Read> = Vec::new();
    for line in calls::all().filter(|line| line.starts_with("reset ")) {
        if let Some(state) = state_words(&line.split(' ').collect::<Vec<_>>()) {
            totals.push(Read::of(&state));
        }
    }
    let mut off = HashSet::new();
    for right in totals.iter().filter(|totals| totals.off() == [0; 16]) {
        for wrong in totals.iter().filter(|wrong| wrong.taken == right.taken) {
            let places = (0..3).flat_map(|n| (0..16).map(move |p| (n, p)));
            let differ = places.filter(|(n, p)| right.kinds[*n][*p] != wrong.kinds[*n][*p]);
            if let [(n, p)] = differ.collect::<Vec<_>>()[..] {
                off.insert((n, p, wrong.off()[p]));
            }
        }
    }
    for n in 0..3 {
        for p in [0, 7, 15] {
            assert!(off.contains(&(n, p, 1)) && off.contains(&(n, p, -1)));
        }
    }
}

/// The random lines have histories of all lengths, full ones and wrong ones, in every call.
#[test]
fn random_lines() {
    let mut count: HashMap<(String, String), usize> = HashMap::new();
    let (mut wrong, mut many, mut twins) = (0, 0, 0);
    for line in calls::random(2, 20_000) {
        let Some(number) = held(&line) else {
            continue;
        };
        *count.entry((asks(&line).to_string(), number)).or_default() += 1;
        let words: Vec<&str> = line.split(' ').collect();
        let state = state_words(&words).unwrap();
        let totals = Read::of(&state);
        if !over(&state) && totals.wrong() {
            wrong += 1;
        }
        if totals.given() > 1000 && totals.given() < 999_000 {
            many += 1;
        }
        if totals.kinds[0][0] != totals.kinds[0][1] {
            twins += 1;
        }
    }
    assert!(wrong > 100 && many > 1000 && twins > 1000);
    for (name, numbers) in [("lose", "0 2 9"), ("reset", "0 2"), ("service", "0 2")] {
        for number in numbers.split(' ') {
            let times = count[&(name.to_string(), number.to_string())];
            assert!(times > 10, "{name} gave {number} {times} times");
        }
    }
    for number in ["0", "1", "2", "3", "9"] {
        assert!(count.contains_key(&("take".to_string(), number.to_string())));
    }
}

/// A state has eleven words: none may be missing, too long, too short or no number of its kind.
#[test]
fn unreadable_states() {
    let zeros = |count| "0".repeat(count);
    let six = format!("{0} {0} 00 00 {0} {1}", zeros(64), zeros(512));
    let (n, short, long) = (zeros(128), zeros(126), zeros(130));
    for (totals, readable) in [
        (format!(" 0 0 {n} {n} {n}"), true),
        (format!(" 4294967295 4294967295 {n} {n} {n}"), true),
        (String::new(), false),
        (format!(" 0 0 {n} {n}"), false),
        (format!(" 0 0 {n} {n} {n} {n}"), false),
        (format!(" 0 {n} {n} {n}"), false),
        (format!(" 4294967296 0 {n} {n} {n}"), false),
        (format!(" 0 4294967296 {n} {n} {n}"), false),
        (format!(" -1 0 {n} {n} {n}"), false),
        (format!(" 00 0 {n} {n} {n}"), false),
        (format!(" 0 +0 {n} {n} {n}"), false),
        (format!(" 0 0 {short} {n} {n}"), false),
        (format!(" 0 0 {n} {long} {n}"), false),
        (format!(" 0 0 {n} {n} {short}"), false),
        (format!(" 0 0 {n} {n} {}", zeros(127)), false),
        (format!(" 0 0 {n} {n} {short}0G"), false),
        (format!(" 0 0 {n} {n} {short}0A"), false),
    ] {
        for name in ["lose", "reset"] {
            assert_eq!(answer(&format!("{name} {six}{totals}")).is_some(), readable);
        }
        let line = format!("service {six}{totals} 010203040506 0000010111001111");
        assert_eq!(answer(&line).is_some(), readable);
        let line = format!("take 2 5120 2048 2048 0 {} {six}{totals}", zeros(26));
        assert_eq!(answer(&line).is_some(), readable);
    }
}
