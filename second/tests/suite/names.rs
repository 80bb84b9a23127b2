//! What is noted of types and labels, with the service heard superframe by superframe.

use crate::hand::{NEITHER, SYNC_1, SYNC_2};
use second::bits;
use second::hand_on::names::{quoted, Names};
use second::service::Service;

/// A channel that is not used (directive 3R1): type 0, music, mode 0.
const UNUSED: u8 = 0b0000_1001;
const POP_MUSIC_MONO: u8 = 0b1010_1010;
const NONE_SPEECH_MONO: u8 = 0b0000_0011;
/// Type 15, speech, mode 2.
const SPECIAL: u8 = 0b1111_0101;
/// An odd number of ones.
const ODD: u8 = 0b1010_1011;

struct Listener {
    superframe: u64,
    service: Service,
    names: Names,
}

impl Listener {
    /// Behind superframe 1, whose sync opens a group.
    fn new() -> Listener {
        let mut listener = Listener {
            superframe: 0,
            service: Service::searching(),
            names: Names::default(),
        };
        assert_eq!(listener.take([UNUSED; 4], SYNC_1), "");
        listener
    }

    fn take(&mut self, four: [u8; 4], sync: &str) -> String {
        self.superframe += 1;
        let six = [four[0], four[1], four[2], four[3], 1, 2];
        let (heard, next) = self.service.take(&six, &bits::of_text(sync));
        let lines = self
            .names
            .hear(self.superframe, &self.service, &six, &heard);
        self.service = next;
        lines
    }

    fn lose(&mut self) {
        self.superframe += 1;
        self.service = Service::searching();
    }

    /// Eight superframes, with this sync behind the last.
    fn group_before(&mut self, group: [u8; 32], sync: &str) -> String {
        let mut lines = String::new();
        for (n, four) in group.chunks(4).enumerate() {
            let sync = if n < 7 { SYNC_2 } else { sync };
            lines += &self.take(four.try_into().unwrap(), sync);
        }
        lines
    }

    fn group(&mut self, group: [u8; 32]) -> String {
        self.group_before(group, SYNC_1)
    }

    fn labels(&mut self, labels: &[[u8; 8]; 32]) -> String {
        let group = |n: usize| std::array::from_fn(|channel| labels[channel][n]);
        (0..8).map(|n| self.group(group(n))).collect()
    }
}

fn with(mut group: [u8; 32], changes: &[(usize, u8)]) -> [u8; 32] {
    for (channel, byte) in changes {
        group[*channel] = *byte;
    }
    group
}

/// The line of a channel that is not used.
fn unused(superframe: u64, channel: &str) -> String {
    format!("superframe {superframe} channel {channel} type KEINE music mode 0\n")
}

/// The names of channels `from` to 32, counted from 1.
fn channels(from: usize) -> impl Iterator<Item = String> {
    let name = |c: usize| format!("{}{}", c.div_ceil(2), if c % 2 == 1 { "L" } else { "R" });
    (from..=32).map(name)
}

#[test]
fn types_when_the_separator_is_complete() {
    let mut listener = Listener::new();
    let bytes = [
        (0, POP_MUSIC_MONO),
        (1, NONE_SPEECH_MONO),
        (2, SPECIAL),
        (31, POP_MUSIC_MONO),
    ];
    assert_eq!(listener.group(with([UNUSED; 32], &bytes)), "");
    let mut expected = String::from(
        "superframe 9 channel 1L type POP music mode 1\n\
         superframe 9 channel 1R type KEINE speech mode 1\n\
         superframe 9 channel 2L type SPEZ MUS speech mode 2\n",
    );
    for channel in channels(4).take(28) {
        expected += &unused(9, &channel);
    }
    expected += "superframe 9 channel 16R type POP music mode 1\n";
    assert_eq!(listener.group([0; 32]), expected);
    assert_eq!(listener.superframe, 17);
}

/// The last of several groups of programme bytes is the one that counts.
#[test]
fn group_before_the_separator() {
    let mut listener = Listener::new();
    assert_eq!(listener.group([SPECIAL; 32]), "");
    assert_eq!(listener.group([UNUSED; 32]), "");
    let expected: String = channels(1).map(|channel| unused(17, &channel)).collect();
    assert_eq!(listener.group([0; 32]), expected);
}

#[test]
fn separator_without_a_group_before() {
    let mut listener = Listener::new();
    assert_eq!(listener.group([0; 32]), "");
    // The labels come all the same.
    assert_eq!(listener.labels(&[*b"RADIO  1"; 32]).lines().count(), 32);
}

#[test]
fn group_before_not_eight_superframes_earlier() {
    // The sync behind the group opens none, the one after it does.
    let mut nine = Listener::new();
    assert_eq!(nine.group_before([UNUSED; 32], SYNC_2), "");
    assert_eq!(nine.take([0; 4], SYNC_1), "");
    assert_eq!(nine.group([0; 32]), "");
    // A group is begun and dropped between.
    let mut dropped = Listener::new();
    assert_eq!(dropped.group([UNUSED; 32]), "");
    assert_eq!(dropped.take([0; 4], SYNC_2), "");
    assert_eq!(dropped.take([0; 4], SYNC_1), "");
    assert_eq!(dropped.group([0; 32]), "");
    // A superframe is lost between.
    let mut lost = Listener::new();
    assert_eq!(lost.group([UNUSED; 32]), "");
    lost.lose();
    assert_eq!(lost.take([0; 4], SYNC_1), "");
    assert_eq!(lost.group([0; 32]), "");
    // After any of these the next turn is noted as ever.
    for mut listener in [nine, dropped, lost] {
        listener.labels(&[*b"RADIO  1"; 32]);
        assert_eq!(listener.group([UNUSED; 32]), "");
        assert_eq!(listener.group([0; 32]).lines().count(), 32);
    }
}

#[test]
fn odd_parity() {
    let mut listener = Listener::new();
    let turn = |listener: &mut Listener, byte: u8| {
        listener.group(with([UNUSED; 32], &[(5, byte)]));
        let lines = listener.group([0; 32]);
        listener.labels(&[*b"RADIO  1"; 32]);
        lines
    };
    let first = turn(&mut listener, ODD);
    assert_eq!(first.lines().count(), 31);
    assert!(!first.contains("channel 3R"), "{first}");
    let line = |superframe| format!("superframe {superframe} channel 3R type POP music mode 1\n");
    assert_eq!(turn(&mut listener, POP_MUSIC_MONO), line(80 + 9));
    // The last one noted stays the last one.
    assert_eq!(turn(&mut listener, ODD), "");
    assert_eq!(turn(&mut listener, POP_MUSIC_MONO), "");
}

#[test]
fn types_that_differ_from_the_last() {
    let mut listener = Listener::new();
    let turn = |listener: &mut Listener, byte: u8| {
        listener.group(with([UNUSED; 32], &[(30, byte)]));
        let lines = listener.group([0; 32]);
        listener.labels(&[*b"RADIO  1"; 32]);
        lines
    };
    assert_eq!(turn(&mut listener, SPECIAL).lines().count(), 32);
    assert_eq!(turn(&mut listener, SPECIAL), "");
    let pop = "superframe 169 channel 16L type POP music mode 1\n";
    assert_eq!(turn(&mut listener, POP_MUSIC_MONO), pop);
    // Noted before, but not last. A loss makes nothing new.
    listener.lose();
    assert_eq!(listener.take([0; 4], SYNC_1), "");
    let special = "superframe 251 channel 16L type SPEZ MUS speech mode 2\n";
    assert_eq!(turn(&mut listener, SPECIAL), special);
}

#[test]
fn labels_that_differ_from_the_last() {
    let mut listener = Listener::new();
    listener.group([0; 32]);
    let mut labels = [*b"        "; 32];
    labels[0] = *b"DLF     ";
    let lines = listener.labels(&labels);
    assert!(lines.starts_with(
        "superframe 73 channel 1L label \"DLF     \"\n\
         superframe 73 channel 1R label \"        \"\n"
    ));
    assert!(lines.ends_with("superframe 73 channel 16R label \"        \"\n"));
    assert_eq!(lines.lines().count(), 32);
    listener.group([0; 32]);
    assert_eq!(listener.labels(&labels), "");
    labels[9] = *b"a\"\\b\x7f\x80\xff\x00";
    listener.group([0; 32]);
    assert_eq!(
        listener.labels(&labels),
        "superframe 217 channel 5R label \"a\\x22\\x5cb\\x7f\\x80\\xff\\x00\"\n"
    );
    labels[9] = *b"        ";
    listener.group([0; 32]);
    let back = "superframe 289 channel 5R label \"        \"\n";
    assert_eq!(listener.labels(&labels), back);
}

#[test]
fn escapes() {
    for byte in 0..=255 {
        let plain = (32..=126).contains(&byte) && byte != 34 && byte != 92;
        let text = if plain {
            format!("\"{}\"", char::from(byte))
        } else {
            format!("\"\\x{byte:02x}\"")
        };
        assert_eq!(quoted(&[byte]), text);
    }
    assert_eq!(quoted(b"\x1f ~\x7f"), "\"\\x1f ~\\x7f\"");
    assert_eq!(quoted(b"Bj\xf8rn\""), "\"Bj\\xf8rn\\x22\"");
}

/// While labels are gathered, zeros are characters and no separator: letters are never taken for types there.
#[test]
fn zeros_among_the_labels() {
    let mut listener = Listener::new();
    listener.group([0; 32]);
    // A letter with an even number of ones, then zeros, as characters 1 and 2 of all labels.
    let lines = listener.labels(&[*b"A\x00A\x00A\x00A\x00"; 32]);
    assert!(!lines.contains("type"), "{lines}");
    assert_eq!(lines.lines().count(), 32);
}

/// The separator is complete with its bytes, whatever the sync behind them does to the labels.
#[test]
fn separator_with_a_wrong_sync_behind() {
    for sync in [SYNC_2, NEITHER] {
        let mut listener = Listener::new();
        listener.group([UNUSED; 32]);
        let lines = listener.group_before([0; 32], sync);
        assert_eq!(lines.lines().count(), 32);
    }
}

/// Of the group before the separator nothing is asked but when it was complete.
#[test]
fn zeros_behind_the_last_characters() {
    let mut listener = Listener::new();
    listener.group([0; 32]);
    listener.labels(&[*b"RADIO  A"; 32]);
    let lines = listener.group([0; 32]);
    // A, 01000001: type 4, speech, mode 0.
    assert!(lines.starts_with("superframe 73 channel 1L type SPORT speech mode 0\n"));
    assert_eq!(lines.lines().count(), 32);
}
