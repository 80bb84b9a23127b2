//! Service groups and labels (document 01, "Service groups").

use crate::bits::{self, Bit};

pub const CHANNELS: usize = 32;
pub const POSITIONS: usize = 8;
pub const CHARACTERS: usize = 8;

pub const SYNC_1: &str = "0000010111001111";
pub const SYNC_2: &str = "0000010111111111";

/// One label of eight characters for each channel.
pub type Labels = [[u8; CHARACTERS]; CHANNELS];

#[derive(Clone, Copy, Debug, PartialEq, Eq)]
pub enum Sync {
    One,
    Two,
    Neither,
}

impl Sync {
    pub fn read(sixteen: &[Bit]) -> Sync {
        if sixteen == bits::of_text(SYNC_1) {
            Sync::One
        } else if sixteen == bits::of_text(SYNC_2) {
            Sync::Two
        } else {
            Sync::Neither
        }
    }
}

/// Where the service stands between two superframes. A place that carries nothing holds 0.
#[derive(Clone, Debug, PartialEq, Eq)]
pub struct Service {
    /// The position of the next six bytes, 1 to 8; 0 where no group is open.
    pub position: u8,
    /// 0 while the separator is searched for; 1 after it; n + 1 after n groups of characters.
    pub stage: u8,
    /// The channel bytes of the open group: those of positions below `position`.
    pub group: [u8; CHANNELS],
    /// The characters gathered: those below `stage`, counted from 1.
    pub labels: Labels,
}

/// What one superframe's service bits say.
#[derive(Clone, Debug, PartialEq, Eq)]
pub struct Heard {
    /// The position of the six bytes, or 0 where they belong to no open group.
    pub position: u8,
    pub sync: Sync,
    pub labels: Option<Labels>,
}

impl Service {
    pub fn searching() -> Service {
        Service {
            position: 0,
            stage: 0,
            group: [0; CHANNELS],
            labels: [[0; CHARACTERS]; CHANNELS],
        }
    }

    /// Each number by itself; combinations that no reel leads to are taken as they are.
    pub fn in_range(&self) -> bool {
        usize::from(self.position) <= POSITIONS && usize::from(self.stage) <= CHARACTERS
    }

    /// The six bytes are taken first, then the sync. The state is in range.
    pub fn take(&self, six: &[u8; 6], sixteen: &[Bit]) -> (Heard, Service) {
        let mut next = self.clone();
        let mut labels = None;
        let position = usize::from(self.position);
        if position > 0 {
            // Bytes 1 to 4 at position m are the channels of programmes 2m-1 and 2m.
            next.group[4 * (position - 1)..][..4].copy_from_slice(&six[..4]);
        }
        if position == POSITIONS {
            labels = next.complete();
        }
        let sync = Sync::read(sixteen);
        let open = (1..POSITIONS).contains(&position);
        let dropped = match sync {
            Sync::One => {
                next.position = 1;
                open
            }
            Sync::Two if open => {
                next.position += 1;
                false
            }
            Sync::Two | Sync::Neither => {
                next.position = 0;
                true
            }
        };
        if dropped {
            next.stage = 0;
        }
        next.clear_what_carries_nothing();
        let position = self.position;
        let heard = Heard {
            position,
            sync,
            labels,
        };
        (heard, next)
    }

    /// The group is complete: a separator, or one more character of each label, or neither.
    fn complete(&mut self) -> Option<Labels> {
        if self.stage == 0 {
            if self.group == [0; CHANNELS] {
                self.stage = 1;
            }
            return None;
        }
        let character = usize::from(self.stage) - 1;
        for (label, byte) in self.labels.iter_mut().zip(self.group) {
            label[character] = byte;
        }
        if character + 1 < CHARACTERS {
            self.stage += 1;
            return None;
        }
        self.stage = 0;
        Some(self.labels)
    }

    fn clear_what_carries_nothing(&mut self) {
        let groups = usize::from(self.position).saturating_sub(1);
        self.group[4 * groups..].fill(0);
        let characters = usize::from(self.stage).saturating_sub(1);
        for label in &mut self.labels {
            label[characters..].fill(0);
        }
    }
}
