//! The running totals of the reader's state, and the text that has them for a reel (document 02, P7).

use crate::reel::{self, End};
use crate::superframe::{Counts, State, FRAMES, PROGRAMMES};
use std::io::{self, Read, Write};

/// A history has at most so many superframes.
pub const MOST: u64 = 1_000_000;

/// One number for each programme.
pub type Numbers = [u32; PROGRAMMES];

/// What was counted since the history began: superframes, and blocks of each programme.
#[derive(Clone, Debug, Default, PartialEq, Eq)]
pub struct Totals {
    pub taken: u32,
    pub lost: u32,
    pub clean: Numbers,
    pub mended: Numbers,
    pub bad: Numbers,
}

impl Totals {
    /// The superframes given: those taken and those lost.
    pub fn given(&self) -> u64 {
        u64::from(self.taken) + u64::from(self.lost)
    }

    /// Each programme has a block in each of 64 frames of every superframe taken.
    pub fn in_range(&self) -> bool {
        let blocks = FRAMES as u64 * u64::from(self.taken);
        let sum = |p: usize| -> u64 {
            let kinds = [self.clean[p], self.mended[p], self.bad[p]];
            kinds.into_iter().map(u64::from).sum()
        };
        self.given() <= MOST && (0..PROGRAMMES).all(|p| sum(p) == blocks)
    }

    /// No superframe can be given any more.
    pub fn full(&self) -> bool {
        self.given() == MOST
    }

    /// One superframe more that was lost. The totals are in range and not full.
    pub fn lose(&self) -> Totals {
        Totals {
            lost: self.lost + 1,
            ..self.clone()
        }
    }

    /// One superframe more that was taken, with the counts of its eight blocks. The totals are in range and not full.
    pub fn take(&self, blocks: &[Counts; 8]) -> Totals {
        let mut next = self.clone();
        next.taken += 1;
        for p in 0..PROGRAMMES {
            // Of the eight blocks, the b-th carries programmes 2b-1 and 2b, and counts for both.
            let counts = blocks[p / 2];
            next.clean[p] += counts.clean as u32;
            next.mended[p] += counts.mended as u32;
            next.bad[p] += counts.bad as u32;
        }
        next
    }

    pub fn write(&self, end: End, output: &mut impl Write) -> io::Result<()> {
        if end != End::Refused {
            writeln!(output, "superframes {}", self.given())?;
            writeln!(output, "lost {}", self.lost)?;
            for p in 0..PROGRAMMES {
                let (clean, mended, bad) = (self.clean[p], self.mended[p], self.bad[p]);
                let number = p + 1;
                writeln!(
                    output,
                    "programme {number} clean {clean} mended {mended} bad {bad}"
                )?;
            }
        }
        end.write(output)
    }
}

/// The totals of a reel, its blocks read at a radius. No reel has more superframes than a history.
pub fn write(radius: u8, input: impl Read, output: &mut impl Write) -> io::Result<()> {
    let mut state = State::fresh();
    let end = reel::walk(input, |bytes| {
        (_, state) = state.take(radius, bytes);
        Ok(())
    })?;
    state.totals.write(end, output)
}
