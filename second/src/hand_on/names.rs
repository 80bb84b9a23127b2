//! What the service said of the channels: types and labels, each when it is new.

use crate::programme;
use crate::service::{Heard, Service, CHANNELS, CHARACTERS, POSITIONS};
use std::fmt::Write;

/// What was noted last, and the group that was complete last.
#[derive(Default)]
pub struct Names {
    bytes: [Option<u8>; CHANNELS],
    labels: [Option<[u8; CHARACTERS]>; CHANNELS],
    /// The superframe in which it was complete, and its channel bytes.
    group: Option<(u64, [u8; CHANNELS])>,
}

impl Names {
    /// The lines that a superframe brings. `before` is the service as it stood before it; the group is complete with
    /// the six bytes, whatever the sync behind them does.
    pub fn hear(
        &mut self,
        superframe: u64,
        before: &Service,
        six: &[u8; 6],
        heard: &Heard,
    ) -> String {
        let mut lines = String::new();
        if usize::from(heard.position) == POSITIONS {
            let mut group = before.group;
            group[CHANNELS - 4..].copy_from_slice(&six[..4]);
            // Only while labels are searched for are zeros the separator.
            let separator = before.stage == 0 && group == [0; CHANNELS];
            let earlier = self.group.replace((superframe, group));
            if let (true, Some((complete, bytes))) = (separator, earlier) {
                if complete + POSITIONS as u64 == superframe {
                    self.note_bytes(complete, &bytes, &mut lines);
                }
            }
        }
        if let Some(labels) = &heard.labels {
            self.note_labels(superframe, labels, &mut lines);
        }
        lines
    }

    fn note_bytes(&mut self, superframe: u64, bytes: &[u8; CHANNELS], lines: &mut String) {
        for (channel, byte) in bytes.iter().enumerate() {
            let Ok(read) = programme::read(*byte) else {
                continue;
            };
            if self.bytes[channel].replace(*byte) == Some(*byte) {
                continue;
            }
            // A type of four bits has a name, and writing into a String cannot fail.
            let name = programme::name_of(read.kind).unwrap_or_default();
            let (name, channel) = (name.trim_end(), channel_name(channel));
            let music = if read.music == 1 { "music" } else { "speech" };
            let mode = read.mode;
            let _ = writeln!(
                lines,
                "superframe {superframe} channel {channel} type {name} {music} mode {mode}"
            );
        }
    }

    fn note_labels(
        &mut self,
        superframe: u64,
        labels: &[[u8; CHARACTERS]; CHANNELS],
        lines: &mut String,
    ) {
        for (channel, label) in labels.iter().enumerate() {
            if self.labels[channel].replace(*label) == Some(*label) {
                continue;
            }
            let (label, channel) = (quoted(label), channel_name(channel));
            let _ = writeln!(
                lines,
                "superframe {superframe} channel {channel} label {label}"
            );
        }
    }
}

/// Of a channel counted from 0: the number of its programme, and L or R.
fn channel_name(channel: usize) -> String {
    let side = if channel % 2 == 0 { 'L' } else { 'R' };
    format!("{}{side}", channel / 2 + 1)
}

/// In quotes; what is not plain ASCII, or would be a quote or a backslash, as `\x` and two digits.
pub fn quoted(label: &[u8]) -> String {
    let mut text = String::from("\"");
    for byte in label {
        match byte {
            b'"' | b'\\' | 0..=31 | 127.. => {
                let _ = write!(text, "\\x{byte:02x}");
            }
            _ => text.push(char::from(*byte)),
        }
    }
    text.push('"');
    text
}
