//! The superframe and the reader's state (document 01, "Superframe"; document 02, P7 and P9).

use crate::bits::{self, Bit};
use crate::block::{self, Block};
use crate::frame::{self, Letter};
use crate::numbers::Refusal;
use crate::radius;
use crate::sample;
use crate::scale::{self, Extra};
use crate::service::{Heard, Service, CHANNELS};
use crate::totals::Totals;
use crate::word::Reading;

pub const FRAMES: usize = 64;
pub const PROGRAMMES: usize = 16;
pub const BYTES: usize = 2 * FRAMES * frame::BYTES;
/// How many samples a superframe hands on, and how many marks.
pub const SAMPLES: usize = FRAMES * CHANNELS;
/// In place of a factor.
pub const MISSING: u8 = 8;

/// The marks of blocks.
const CLEAN: u8 = 0;
const MENDED: u8 = 1;
const BAD: u8 = 2;
const MENDED_WITH_3: u8 = 4;
/// The mark that wins over each of these.
const NO_FACTOR: u8 = 3;

/// The letter of main frame 1 to 128: 64 of A, then 64 of B.
pub fn letter(frame: usize) -> Letter {
    if frame <= FRAMES {
        Letter::A
    } else {
        Letter::B
    }
}

#[derive(Clone, Debug, PartialEq, Eq)]
pub struct State {
    /// The factors for the next superframe, channel by channel.
    pub now: [u8; CHANNELS],
    /// And for the one after it.
    pub after: [u8; CHANNELS],
    pub service: Service,
    pub totals: Totals,
}

#[derive(Clone, Copy, Debug, Default, PartialEq, Eq)]
pub struct Counts {
    pub clean: u64,
    pub mended: u64,
    pub bad: u64,
}

impl Counts {
    fn add(&mut self, reading: Reading) {
        match reading {
            Reading::Clean => self.clean += 1,
            Reading::Mended(_) => self.mended += 1,
            Reading::Bad => self.bad += 1,
        }
    }
}

fn mark_of(reading: Reading) -> u8 {
    match reading {
        Reading::Clean => CLEAN,
        Reading::Mended(3) => MENDED_WITH_3,
        Reading::Mended(_) => MENDED,
        Reading::Bad => BAD,
    }
}

/// What a superframe that wasn't lost hands on. Samples and marks are frame by frame,
/// channels of programmes 1 to 16 in order, left first.
#[derive(Clone, Debug, PartialEq, Eq)]
pub struct Taken {
    pub samples: Vec<[i16; CHANNELS]>,
    pub marks: Vec<[u8; CHANNELS]>,
    /// The wrong bits of its 128 syncs, added.
    pub wrong: u16,
    /// Of the four blocks of A and the four of B, each over 64 frames.
    pub blocks: [Counts; 8],
    pub extra: Vec<Extra>,
    pub six: [u8; 6],
    pub heard: Heard,
}

impl Taken {
    /// Of all 512 blocks.
    pub fn counts(&self) -> Counts {
        self.blocks
            .iter()
            .fold(Counts::default(), |sum, block| Counts {
                clean: sum.clean + block.clean,
                mended: sum.mended + block.mended,
                bad: sum.bad + block.bad,
            })
    }
}

impl State {
    pub fn fresh() -> State {
        State {
            now: [MISSING; CHANNELS],
            after: [MISSING; CHANNELS],
            service: Service::searching(),
            totals: Totals::default(),
        }
    }

    fn in_range(&self) -> bool {
        let mut factors = self.now.iter().chain(&self.after);
        factors.all(|factor| *factor <= MISSING)
            && self.service.in_range()
            && self.totals.in_range()
    }

    /// The state after one lost superframe.
    pub fn lose(&self) -> Result<State, Refusal> {
        if !self.in_range() {
            return Err(Refusal::Range);
        }
        if self.totals.full() {
            return Err(Refusal::Full);
        }
        Ok(State {
            now: self.after,
            after: [MISSING; CHANNELS],
            service: Service::searching(),
            totals: self.totals.lose(),
        })
    }

    /// A new history starts; all but the totals stays as given.
    pub fn reset(&self) -> Result<State, Refusal> {
        if !self.in_range() {
            return Err(Refusal::Range);
        }
        Ok(State {
            totals: Totals::default(),
            ..self.clone()
        })
    }

    /// The service bits of one superframe by themselves; the factors and the totals stay as given.
    pub fn take_service(&self, six: &[u8; 6], sync: &[Bit]) -> Result<(Heard, State), Refusal> {
        if !self.in_range() || !bits::all_in_range(sync) {
            return Err(Refusal::Range);
        }
        let (heard, service) = self.service.take(six, sync);
        let state = State {
            service,
            ..self.clone()
        };
        Ok((heard, state))
    }

    /// One superframe, its blocks read at a radius: what it hands on or the number, and the next state beside either.
    pub fn take(&self, radius: u8, bytes: &[u8]) -> (Result<Taken, Refusal>, State) {
        if bytes.len() != BYTES {
            return (Err(Refusal::Length), self.clone());
        }
        if !radius::in_range(radius) {
            return (Err(Refusal::Range), self.clone());
        }
        let lost = match self.lose() {
            Ok(state) => state,
            Err(refusal) => return (Err(refusal), self.clone()),
        };
        match Received::read(bytes).and_then(|received| self.hear(radius, &received)) {
            Ok((taken, state)) => (Ok(taken), state),
            Err(refusal) => (Err(refusal), lost),
        }
    }

    /// The same into lent lists, which have to have a place for each sample and each mark. Only a superframe
    /// that is taken writes.
    pub fn take_into(
        &self,
        radius: u8,
        bytes: &[u8],
        samples: &mut [i16],
        marks: &mut [u8],
    ) -> (Result<Taken, Refusal>, State) {
        if samples.len() != SAMPLES || marks.len() != SAMPLES {
            return (Err(Refusal::Length), self.clone());
        }
        let (answer, next) = self.take(radius, bytes);
        if let Ok(taken) = &answer {
            samples.copy_from_slice(taken.samples.as_flattened());
            marks.copy_from_slice(taken.marks.as_flattened());
        }
        (answer, next)
    }

    fn hear(&self, radius: u8, received: &Received) -> Result<(Taken, State), Refusal> {
        let mut samples = vec![[0; CHANNELS]; FRAMES];
        let mut marks = vec![[NO_FACTOR; CHANNELS]; FRAMES];
        let mut counts = [Counts::default(); 8];
        let mut extra = vec![[0; scale::EXTRA]; PROGRAMMES];
        for (f, blocks) in received.blocks.iter().enumerate() {
            for (b, block) in blocks.iter().enumerate() {
                let (reading, block) = block::read(radius, block)?;
                counts[b].add(reading);
                let content = block::content(&block)?;
                // Of the eight blocks, the b-th carries programmes 2b-1 and 2b, channels 4b-3 to 4b.
                for (c, code) in content.codes.iter().enumerate() {
                    let channel = 4 * b + c;
                    if self.now[channel] != MISSING {
                        samples[f][channel] = sample::sample_of(*code, self.now[channel])? as i16;
                        marks[f][channel] = mark_of(reading);
                    }
                }
                extra[2 * b][f] = content.extra[0];
                extra[2 * b + 1][f] = content.extra[1];
            }
        }
        let extra: Vec<Extra> = extra
            .iter()
            .map(scale::read_extra)
            .collect::<Result<_, _>>()?;
        let (heard, service) = self.service.take(&received.six, &received.sync);
        // The factors read here hold for the superframe after the next.
        let mut read = [MISSING; CHANNELS];
        for (programme, extra) in extra.iter().enumerate() {
            if let Some(near) = extra.near {
                (read[2 * programme], read[2 * programme + 1]) = near.factors;
            }
        }
        let state = State {
            now: self.after,
            after: read,
            service,
            totals: self.totals.take(&counts),
        };
        let taken = Taken {
            samples,
            marks,
            wrong: received.wrong,
            blocks: counts,
            extra,
            six: received.six,
            heard,
        };
        Ok((taken, state))
    }
}

/// The bits of a superframe sorted, before any is mended.
struct Received {
    wrong: u16,
    /// For each of 64 frames the four blocks of A and the four of B.
    blocks: Vec<[Block; 8]>,
    six: [u8; 6],
    sync: Vec<Bit>,
}

impl Received {
    /// Wrong length and wrong sync are refused; none of the 128 syncs may have too many wrong bits.
    fn read(bytes: &[u8]) -> Result<Received, Refusal> {
        let mut blocks = vec![[[0; block::LENGTH]; 8]; FRAMES];
        let mut service = Vec::with_capacity(FRAMES);
        let mut wrong = 0;
        for (n, bytes) in bytes.chunks(frame::BYTES).enumerate() {
            let letter = letter(n + 1);
            let frame = frame::read(letter, bytes)?;
            wrong += u16::from(frame.wrong);
            match letter {
                Letter::A => {
                    service.push(frame.service);
                    blocks[n][..4].copy_from_slice(&frame.blocks);
                }
                Letter::B => blocks[n - FRAMES][4..].copy_from_slice(&frame.blocks),
            }
        }
        // Service bits 1 to 48 are six bytes, 49 to 64 the sync of the following service frame.
        let sync = service.split_off(48);
        let mut six = [0; 6];
        six.copy_from_slice(&bits::to_bytes(&service));
        Ok(Received {
            wrong,
            blocks,
            six,
            sync,
        })
    }
}
