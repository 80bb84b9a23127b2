//! The listing of a reel (document 01, "Reel file and listing"). It counts by the ordinary reading.

use crate::numbers::Refusal;
use crate::radius;
use crate::reel::{self, End};
use crate::superframe::{Counts, State, Taken};
use std::io::{self, Read, Write};

pub fn list(input: impl Read, output: &mut impl Write) -> io::Result<()> {
    let mut state = State::fresh();
    let mut tally = Tally::default();
    let end = reel::walk(input, |bytes| {
        let (answer, next) = state.take(radius::ORDINARY, bytes);
        state = next;
        tally.add(&answer);
        Ok(())
    })?;
    tally.write(end, output)
}

/// What a listing counts.
#[derive(Default)]
pub struct Tally {
    superframes: u64,
    lost: u64,
    /// Wrong bits in the syncs of those that were not lost.
    wrong: u64,
    total: Counts,
}

impl Tally {
    /// One superframe more.
    pub fn add(&mut self, answer: &Result<Taken, Refusal>) {
        self.superframes += 1;
        match answer {
            Ok(taken) => {
                self.wrong += u64::from(taken.wrong);
                let counts = taken.counts();
                self.total.clean += counts.clean;
                self.total.mended += counts.mended;
                self.total.bad += counts.bad;
            }
            Err(_) => self.lost += 1,
        }
    }

    pub fn write(&self, end: End, output: &mut impl Write) -> io::Result<()> {
        if end != End::Refused {
            writeln!(output, "superframes {}", self.superframes)?;
            writeln!(output, "lost {}", self.lost)?;
            writeln!(output, "sync {}", self.wrong)?;
            writeln!(output, "clean {}", self.total.clean)?;
            writeln!(output, "mended {}", self.total.mended)?;
            writeln!(output, "bad {}", self.total.bad)?;
        }
        end.write(output)
    }
}
