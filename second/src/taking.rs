//! The answer to a `take` line: the number, the next state, and sums over all that is handed out. README.md gives its form.

use crate::answer::{state_text, sum};
use crate::numbers::Refusal;
use crate::recipe::Recipe;
use crate::service::{Sync, CHANNELS};
use crate::superframe::{self, State, Taken, MISSING, PROGRAMMES, SAMPLES};
use crate::text;

/// The room for the three slices, of which a part is lent: twice what is right.
pub const MOST_BYTES: usize = 2 * superframe::BYTES;
pub const MOST_LENT: usize = 2 * SAMPLES;

/// What stands in every place of the lists before the call.
const SAMPLE: i16 = -21555;
const MARK: u8 = 165;

/// How long the three lent slices are.
#[derive(Clone, Copy, Debug, PartialEq, Eq)]
pub struct Lengths {
    pub bytes: usize,
    pub samples: usize,
    pub marks: usize,
}

impl Lengths {
    pub const RIGHT: Lengths = Lengths {
        bytes: superframe::BYTES,
        samples: SAMPLES,
        marks: SAMPLES,
    };
}

pub fn answer(
    radius: u8,
    state: &State,
    lengths: Lengths,
    recipe: &Recipe,
) -> Result<String, Refusal> {
    let mut bytes = recipe.superframe()?;
    bytes.resize(lengths.bytes, 0);
    let mut samples = [SAMPLE; MOST_LENT];
    let mut marks = [MARK; MOST_LENT];
    let (taken, next) = state.take_into(
        radius,
        &bytes,
        &mut samples[..lengths.samples],
        &mut marks[..lengths.marks],
    );
    let number = match &taken {
        Ok(_) => 0,
        Err(refusal) => refusal.number(),
    };
    let samples = samples.map(|x| (i32::from(x) + 32768) as u32);
    Ok(format!(
        "{number} {} {} {} {}",
        state_text(&next),
        Beside::of(taken.ok().as_ref()).text(),
        sum(samples),
        sum(marks.map(u32::from))
    ))
}

/// All that is handed out beside samples, marks and state. It starts with 0 in every place, which is what a refusal leaves.
#[derive(Default)]
struct Beside {
    wrong: u16,
    clean: [u8; 8],
    mended: [u8; 8],
    bad: [u8; 8],
    numbers: [u8; PROGRAMMES],
    factors: [u8; CHANNELS],
    places: [u8; PROGRAMMES],
    words: [u32; PROGRAMMES],
    six: [u8; 6],
    position: u8,
    service: u8,
    complete: u8,
    labels: Vec<u8>,
}

impl Beside {
    fn of(taken: Option<&Taken>) -> Beside {
        let mut beside = Beside::default();
        let Some(taken) = taken else {
            return beside;
        };
        beside.wrong = taken.wrong;
        for (b, counts) in taken.blocks.iter().enumerate() {
            beside.clean[b] = counts.clean as u8;
            beside.mended[b] = counts.mended as u8;
            beside.bad[b] = counts.bad as u8;
        }
        for (p, extra) in taken.extra.iter().enumerate() {
            let (left, right) = extra.near.map_or((MISSING, MISSING), |near| near.factors);
            beside.factors[2 * p] = left;
            beside.factors[2 * p + 1] = right;
            beside.places[p] = extra.near.map_or(0, |near| near.places);
            if extra.near.is_none() {
                beside.numbers[p] = Refusal::ScaleWord.number();
            }
            beside.words[p] = extra.information;
        }
        beside.six = taken.six;
        beside.position = taken.heard.position;
        if taken.heard.sync == Sync::Neither {
            beside.service = Refusal::ServiceSync.number();
        }
        if let Some(labels) = taken.heard.labels {
            beside.complete = 1;
            beside.labels = labels.as_flattened().to_vec();
        }
        beside
    }

    fn text(&self) -> String {
        let told = [self.position, self.service, self.complete];
        let words = [
            self.wrong.to_string(),
            text::hex(&self.clean),
            text::hex(&self.mended),
            text::hex(&self.bad),
            text::digits(&self.numbers),
            text::hex(&self.factors),
            text::hex(&self.places),
            sum(self.words).to_string(),
            text::hex(&self.six),
            text::digits(&told),
            sum(self.labels.iter().map(|byte| u32::from(*byte))).to_string(),
        ];
        text::spaced(words)
    }
}
