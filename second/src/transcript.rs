//! The transcript: every answer of the reader for each superframe of a reel, its blocks read at a radius.

use crate::reel;
use crate::scale::Extra;
use crate::service::Sync;
use crate::superframe::{State, Taken};
use crate::text;
use std::io::{self, Read, Write};

pub fn write(radius: u8, input: impl Read, output: &mut impl Write) -> io::Result<()> {
    let mut state = State::fresh();
    let mut superframe = 0;
    let end = reel::walk(input, |bytes| {
        let (answer, next) = state.take(radius, bytes);
        state = next;
        superframe += 1;
        match answer {
            Ok(taken) => {
                writeln!(output, "superframe {superframe} number 0")?;
                write_taken(&taken, output)
            }
            Err(refusal) => {
                let number = refusal.number();
                writeln!(output, "superframe {superframe} number {number}")
            }
        }
    })?;
    end.write(output)
}

fn write_taken(taken: &Taken, output: &mut impl Write) -> io::Result<()> {
    let heard = &taken.heard;
    let number = if heard.sync == Sync::Neither { 7 } else { 0 };
    let six = text::hex(&taken.six);
    writeln!(output, "service {} {number} {six}", heard.position)?;
    let labels = match &heard.labels {
        None => "none".to_string(),
        Some(labels) => text::spaced(labels.iter().map(|label| text::hex(label))),
    };
    writeln!(output, "labels {labels}")?;
    writeln!(output, "{}", factors_line(taken))?;
    writeln!(output, "{}", far_line(taken))?;
    writeln!(output, "{}", words_line(taken))?;
    writeln!(output, "sync {}", taken.wrong)?;
    let counts = taken.counts();
    let (clean, mended, bad) = (counts.clean, counts.mended, counts.bad);
    writeln!(output, "blocks {clean} {mended} {bad}")?;
    for (f, (marks, samples)) in taken.marks.iter().zip(&taken.samples).enumerate() {
        writeln!(output, "marks {} {}", f + 1, text::digits(marks))?;
        writeln!(output, "samples {} {}", f + 1, text::spaced(samples))?;
    }
    Ok(())
}

fn factors_line(taken: &Taken) -> String {
    let factors = |extra: &Extra| match extra.near {
        None => "--".to_string(),
        Some(near) => format!("{}{}", near.factors.0, near.factors.1),
    };
    format!("factors {}", text::spaced(taken.extra.iter().map(factors)))
}

/// How far the scale words are from the nearest.
fn far_line(taken: &Taken) -> String {
    let places = |extra: &Extra| match extra.near {
        None => "-".to_string(),
        Some(near) => near.places.to_string(),
    };
    format!("far {}", text::spaced(taken.extra.iter().map(places)))
}

/// The information words, without an end of line.
pub fn words_line(taken: &Taken) -> String {
    let word = |extra: &Extra| format!("{:06x}", extra.information);
    format!("words {}", text::spaced(taken.extra.iter().map(word)))
}
