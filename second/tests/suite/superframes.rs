//! Taking superframes: samples, marks, factors, words.

use crate::hand::{busy_state, make, superframes, Superframe, SYNC_2};
use second::numbers::Refusal;
use second::scale::Near;
use second::service::Sync;
use second::source;
use second::superframe::{State, Taken};

/// Both sets of factors 0.
fn at_zero() -> State {
    let mut state = State::fresh();
    state.now = [0; 32];
    state.after = [0; 32];
    state
}

fn take(state: &State, superframe: &Superframe) -> Taken {
    take_at(2, state, superframe)
}

fn take_at(radius: u8, state: &State, superframe: &Superframe) -> Taken {
    let (taken, _) = state.take(radius, &superframe.bytes());
    taken.unwrap()
}

/// The blocks read clean, mended and bad.
fn counts(taken: &Taken) -> [u64; 3] {
    let counts = taken.counts();
    [counts.clean, counts.mended, counts.bad]
}

/// One code in one place: it comes out in its frame and channel and nowhere else.
#[test]
fn every_channel_in_its_place() {
    for channel in 0..32 {
        let frame = (17 * channel + 3) % 64;
        let taken = take(&at_zero(), &Superframe::zero().code(frame, channel, -1));
        for f in 0..64 {
            for c in 0..32 {
                let expected = if (f, c) == (frame, channel) { -4 } else { 0 };
                assert_eq!(taken.samples[f][c], expected);
            }
        }
        assert_eq!(taken.marks, [[0; 32]; 64]);
        assert_eq!(counts(&taken), [512, 0, 0]);
    }
}

/// Each channel takes its own factor, that of this superframe and not of the next.
#[test]
fn every_channel_takes_its_factor() {
    let mut state = busy_state();
    let mut superframe = Superframe::zero();
    for channel in 0..32 {
        superframe = superframe.code(63, channel, -8192);
        state.now[channel] = (channel % 8) as u8;
    }
    let taken = take(&state, &superframe);
    for channel in 0..32 {
        assert_eq!(taken.samples[63][channel], (-32768 >> (channel % 8)) as i16);
        assert_eq!(taken.marks[63][channel], 0);
    }
}

/// No factor: mark 3 and sample 0, whatever the block's reading; the counts stay as read.
#[test]
fn mark_3_wins() {
    let mut state = at_zero();
    state.now[5] = 8;
    for (radius, wrong, mark, readings) in [
        (2, 2, 1, [511, 1, 0]),
        (2, 3, 2, [511, 0, 1]),
        (3, 3, 4, [511, 1, 0]),
        (3, 4, 2, [511, 0, 1]),
    ] {
        let mut superframe = Superframe::zero().code(0, 4, 100).code(0, 5, 100);
        for place in 0..wrong {
            superframe.blocks[0][1][place] ^= 1;
        }
        let taken = take_at(radius, &state, &superframe);
        let mut marks = [[0; 32]; 64];
        marks[0][4..8].fill(mark);
        marks.iter_mut().for_each(|row| row[5] = 3);
        assert_eq!(taken.marks, marks);
        assert_eq!(taken.samples[0][5], 0);
        assert_eq!(counts(&taken), readings);
    }
}

/// A bad block's samples come from the bits as received; a mended one's from the mended bits. The mark
/// stands on all four channels: 1 for one place and two, 4 for three (document 02, P9), which count as mended too.
#[test]
fn samples_of_mended_and_bad_blocks() {
    for (radius, wrong, mark) in [
        (2, 0, 0),
        (2, 1, 1),
        (2, 2, 1),
        (2, 3, 2),
        (2, 4, 2),
        (3, 0, 0),
        (3, 1, 1),
        (3, 2, 1),
        (3, 3, 4),
        (3, 4, 2),
    ] {
        let mut superframe = Superframe::zero().code(9, 16, 0x1000).code(9, 19, 7);
        // Sound bits 2, 3 and 4 of the first channel are 4096, 2048 and 1024; the last of the block is in the fourth, 8.
        for place in [1, 2, 3, 43].into_iter().take(wrong) {
            superframe.blocks[9][4][place] ^= 1;
        }
        let taken = take_at(radius, &at_zero(), &superframe);
        let samples = match (mark, wrong) {
            (2, 3) => [4 * 0x0c00, 0, 0, 28],
            (2, _) => [4 * 0x0c00, 0, 0, 4 * (8 + 7)],
            _ => [4 * 0x1000, 0, 0, 28],
        };
        assert_eq!(taken.samples[9][16..20], samples);
        let mut marks = [0; 32];
        marks[16..20].fill(mark);
        assert_eq!(taken.marks[9], marks);
        let readings = match mark {
            0 => [512, 0, 0],
            2 => [511, 0, 1],
            _ => [511, 1, 0],
        };
        assert_eq!(counts(&taken), readings);
        assert_eq!(taken.blocks[4].mended, readings[1]);
    }
}

/// Between the two radii only blocks with three wrong places differ: bad, or mended with mark 4. Nothing else that is handed out
/// does, nor the next state but for the totals.
#[test]
fn radius_changes_only_what_is_three_places_away() {
    let mut state = State::fresh();
    let mut fours = 0;
    for bytes in superframes(&make("6 12 upto=5 scale=9%50 syncs=1%50 service=1%30")) {
        let (ordinary, next) = state.take(2, bytes);
        let (wide, other) = state.take(3, bytes);
        let (mended, bad) = (next.totals.mended, next.totals.bad);
        let mut same = other.clone();
        (same.totals.mended, same.totals.bad) = (mended, bad);
        assert_eq!(next, same);
        for p in 0..16 {
            let more = other.totals.mended[p] - mended[p];
            assert_eq!(other.totals.bad[p] + more, bad[p]);
        }
        let (ordinary, wide) = (ordinary.unwrap(), wide.unwrap());
        let marks = |taken: &Taken| taken.marks.as_flattened().to_vec();
        let samples = |taken: &Taken| taken.samples.as_flattened().to_vec();
        for (n, (before, mark)) in marks(&ordinary).into_iter().zip(marks(&wide)).enumerate() {
            match mark {
                4 => assert_eq!(before, 2),
                _ => assert_eq!((before, samples(&ordinary)[n]), (mark, samples(&wide)[n])),
            }
        }
        let [clean, mended, bad] = counts(&ordinary);
        let more = counts(&wide)[1] - mended;
        assert_eq!(counts(&wide), [clean, mended + more, bad - more]);
        // A sixth of 512 has three places, and some of five are mended too.
        assert!((60..140).contains(&more));
        if state.now.iter().all(|factor| *factor < 8) {
            let four = marks(&wide).iter().filter(|mark| **mark == 4).count();
            assert_eq!(four as u64, 4 * more);
            fours += four;
        }
        let beside = |taken: Taken| (taken.wrong, taken.extra, taken.six, taken.heard);
        assert_eq!(beside(ordinary), beside(wide));
        state = next;
    }
    assert!(fours > 0);
}

/// Document 02, P9: 2 for a radius other than two or three, after 1 and before 3; the state stays as given.
#[test]
fn radius_out_of_range() {
    let good = Superframe::zero().bytes();
    let mut lost = good.clone();
    lost[0] ^= 7;
    let state = busy_state();
    let mut wrong = busy_state();
    wrong.after[7] = 9;
    for radius in 0..=255 {
        let right = radius == 2 || radius == 3;
        for (state, bytes, number) in [
            (
                &state,
                &good[..],
                if right { None } else { Some(Refusal::Range) },
            ),
            (
                &state,
                &lost,
                Some(if right { Refusal::Sync } else { Refusal::Range }),
            ),
            (&wrong, &good, Some(Refusal::Range)),
            (&wrong, &lost, Some(Refusal::Range)),
            (&state, &good[1..], Some(Refusal::Length)),
            (&wrong, &lost[1..], Some(Refusal::Length)),
        ] {
            let (answer, next) = state.take(radius, bytes);
            assert_eq!(answer.err(), number, "radius {radius}");
            match number {
                None => {}
                Some(Refusal::Sync) => assert_eq!(next, state.lose().unwrap()),
                Some(_) => assert_eq!(next, *state),
            }
        }
    }
}

/// Scale words and information words of each programme, and the set of factors that they go into.
#[test]
fn factors_go_two_ahead() {
    for programme in 0..16 {
        let superframe =
            Superframe::zero().scale(programme, "00000111010001", "1000000000000000000011");
        let state = busy_state();
        let (taken, next) = state.take(2, &superframe.bytes());
        let taken = taken.unwrap();
        for (p, extra) in taken.extra.iter().enumerate() {
            let expected = if p == programme {
                ((0, 1), 0x20_0003)
            } else {
                ((0, 0), 0)
            };
            assert_eq!((extra.near.unwrap().factors, extra.information), expected);
        }
        let mut after = [0; 32];
        after[2 * programme + 1] = 1;
        assert_eq!(next.now, state.after);
        assert_eq!(next.after, after);
    }
}

/// Number 5: that programme's two factors are missing, in the set for the superframe after the next;
/// extra bits of bad blocks count as received.
#[test]
fn number_5_inside_a_superframe() {
    let ones = "1".repeat(64);
    let mut superframe = Superframe::zero().extra(11, &ones);
    for blocks in &mut superframe.blocks {
        for place in [0, 1, 2] {
            blocks[5][place] ^= 1;
        }
    }
    let state = at_zero();
    let (taken, next) = state.take(2, &superframe.bytes());
    let taken = taken.unwrap();
    assert_eq!((taken.counts().bad, taken.blocks[5].bad), (64, 64));
    assert_eq!(
        (taken.extra[11].near, taken.extra[11].information),
        (None, 0x3f_ffff)
    );
    let near = Near {
        factors: (0, 0),
        places: 0,
    };
    assert_eq!(
        (taken.extra[10].near, taken.extra[10].information),
        (Some(near), 0)
    );
    let mut after = [0; 32];
    after[22..24].fill(8);
    assert_eq!((next.now, next.after), ([0; 32], after));
}

/// Each programme says in how many places its scale words are wrong, and the factors are those that were sent.
#[test]
fn wrong_places_of_each_programme() {
    let mut superframe = Superframe::zero();
    for programme in 0..16 {
        // The last of the 42, and only as many as are surely mended.
        let wrong = (programme + 3) % 8;
        let copies = format!("{}{}", "0".repeat(42 - wrong), "1".repeat(wrong));
        superframe = superframe.extra(programme, &format!("{copies}{}", "1".repeat(22)));
    }
    let (taken, next) = at_zero().take(2, &superframe.bytes());
    for (programme, extra) in taken.unwrap().extra.into_iter().enumerate() {
        let near = Near {
            factors: (0, 0),
            places: (programme as u8 + 3) % 8,
        };
        assert_eq!((extra.near, extra.information), (Some(near), 0x3f_ffff));
    }
    assert_eq!(next.after, [0; 32]);
}

/// The service bits of the 64 frames A: six bytes, then the sync.
#[test]
fn service_bits() {
    let mut superframe = Superframe::zero();
    superframe.six = [0x80, 0x01, 0x12, 0x34, 0x56, 0xff];
    superframe.sync = SYNC_2;
    let state = busy_state();
    let (taken, next) = state.take(2, &superframe.bytes());
    let taken = taken.unwrap();
    assert_eq!(taken.six, superframe.six);
    assert_eq!((taken.heard.position, taken.heard.sync), (5, Sync::Two));
    let sixteen = second::bits::of_text(SYNC_2);
    let (heard, alone) = state.take_service(&superframe.six, &sixteen).unwrap();
    assert_eq!(taken.heard, heard);
    assert_eq!(next.service, alone.service);
    // Bit 12 of B changes nothing.
    let mut bytes = superframe.bytes();
    for frame in bytes[2560..].chunks_mut(40) {
        frame[1] |= 0x10;
    }
    assert_eq!(state.take(2, &bytes), (Ok(taken), next));
}

/// Three wrong sync bits in any of 128 frames, or the halves exchanged, or any other length.
#[test]
fn lost_superframes() {
    let state = busy_state();
    let lost = (Err(Refusal::Sync), state.lose().unwrap());
    let good = Superframe::zero().bytes();
    for frame in 0..128 {
        let mut bytes = good.clone();
        bytes[40 * frame] ^= 0xc0;
        bytes[40 * frame + frame % 2] ^= 0x20;
        assert_eq!(state.take(2, &bytes), lost, "frame {frame}");
    }
    let mut exchanged = good.clone();
    exchanged.rotate_left(2560);
    assert_eq!(state.take(2, &exchanged), lost);
    let longer = [good.clone(), vec![0]].concat();
    for bytes in [&good[..5119], &[], &longer] {
        assert_eq!(state.take(2, bytes), (Err(Refusal::Length), state.clone()));
    }
}

/// A reel as it is made: from the third superframe on every sample comes back, less what its factor drops.
#[test]
fn sound_comes_back() {
    let reel = make("5 6");
    let mut state = State::fresh();
    for (n, bytes) in superframes(&reel).into_iter().enumerate() {
        let k = n as u64 + 1;
        let (taken, next) = state.take(2, bytes);
        let taken = taken.unwrap();
        state = next;
        let ahead = source::sound(5, k + 2).unwrap();
        for (p, extra) in taken.extra.iter().enumerate() {
            let factors = (ahead.factors[2 * p], ahead.factors[2 * p + 1]);
            assert_eq!(extra.near, Some(Near { factors, places: 0 }));
        }
        let sound = source::sound(5, k).unwrap();
        for f in 0..64 {
            for channel in 0..32 {
                let x = sound.samples[channel][f];
                let rest = match sound.factors[channel] {
                    0 => x & 3,
                    1 => x & 1,
                    _ => 0,
                };
                let expected = if k <= 2 { (0, 3) } else { (x - rest, 0) };
                assert_eq!(
                    (taken.samples[f][channel], taken.marks[f][channel]),
                    expected
                );
            }
        }
    }
}

/// Superframe 4 is lost: 5 still has its factors, 6 has none, 7 has them again.
#[test]
fn factors_around_a_loss() {
    let reel = make("5 7 sync=3@4");
    let mut state = State::fresh();
    let mut marks = Vec::new();
    for bytes in superframes(&reel) {
        let (taken, next) = state.take(2, bytes);
        state = next;
        marks.push(taken.ok().map(|taken| taken.marks[0][0]));
    }
    let expected = [Some(3), Some(3), Some(0), None, Some(0), Some(3), Some(0)];
    assert_eq!(marks, expected);
}
