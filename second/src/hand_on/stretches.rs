//! The stretches of a programme that need an ear, as lines of an Audacity label track.

use super::wav::RATE;

/// So many untroubled pairs in a row end a stretch: 0.1 s.
pub const REST: u64 = 3_200;

#[derive(Clone, Copy, Debug, PartialEq, Eq)]
pub enum Trouble {
    Bad,
    NoFactor,
    Lost,
}

impl Trouble {
    /// Of a pair whose superframe was not lost.
    pub fn of_marks(marks: [u8; 2]) -> Option<Trouble> {
        if marks.contains(&3) {
            Some(Trouble::NoFactor)
        } else if marks.contains(&2) {
            Some(Trouble::Bad)
        } else {
            None
        }
    }
}

/// Pairs count from 0.
#[derive(Clone, Debug, PartialEq, Eq)]
pub struct Stretch {
    pub first: u64,
    pub last: u64,
    pub bad: u64,
    pub no_factor: u64,
    pub lost: u64,
}

impl Stretch {
    /// Without its end of line.
    pub fn line(&self) -> String {
        let kinds = [
            ("bad", self.bad),
            ("no factor", self.no_factor),
            ("lost", self.lost),
        ];
        let words: Vec<String> = kinds
            .iter()
            .filter(|(_, pairs)| *pairs > 0)
            .map(|(kind, pairs)| format!("{kind} {pairs}"))
            .collect();
        let (start, end) = (seconds(self.first), seconds(self.last + 1));
        format!("{start}\t{end}\t{}", words.join(", "))
    }
}

/// The time at which a pair begins. A pair takes 3,125 times 10^-8 s.
pub fn seconds(pair: u64) -> String {
    let rate = u64::from(RATE);
    format!("{}.{:08}", pair / rate, pair % rate * 3_125)
}

/// Pair after pair of a programme, through the whole reel.
#[derive(Default)]
pub struct Stretches {
    /// How many pairs have come.
    pairs: u64,
    open: Option<Stretch>,
}

impl Stretches {
    /// Hands out the stretch before this pair where the pair begins another.
    pub fn pair(&mut self, trouble: Option<Trouble>) -> Option<Stretch> {
        let pair = self.pairs;
        self.pairs += 1;
        let trouble = trouble?;
        let goes_on = |open: &Stretch| pair - open.last - 1 < REST;
        let done = if self.open.as_ref().is_some_and(goes_on) {
            None
        } else {
            self.open.take()
        };
        let open = self.open.get_or_insert(Stretch {
            first: pair,
            last: pair,
            bad: 0,
            no_factor: 0,
            lost: 0,
        });
        open.last = pair;
        match trouble {
            Trouble::Bad => open.bad += 1,
            Trouble::NoFactor => open.no_factor += 1,
            Trouble::Lost => open.lost += 1,
        }
        done
    }

    /// The last stretch.
    pub fn end(self) -> Option<Stretch> {
        self.open
    }
}
