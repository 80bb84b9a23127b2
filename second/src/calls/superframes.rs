//! Call lines that take a superframe: every refusal in its order, every edge, and random ones.

use super::{drawn_radius, spoil, state, totals, FIELDS, NO_RADII};
use crate::answer::state_text;
use crate::bits::{self, Bit};
use crate::frame::{self, SYNC};
use crate::radius;
use crate::random::Random;
use crate::recipe::Recipe;
use crate::service::{CHANNELS, SYNC_1, SYNC_2};
use crate::superframe::{self, State, FRAMES, MISSING};
use crate::taking::{Lengths, MOST_BYTES, MOST_LENT};
use crate::text;
use crate::totals::MOST;

/// In the second byte of a main frame: too many wrong bits for a sync.
const LAST_THREE_SYNC_BITS: u8 = 0xe0;

/// The second byte of the last main frame.
const LAST_FRAME: u16 = (superframe::BYTES - frame::BYTES + 1) as u16;

/// The fields of a state that are no totals.
const FEW_FIELDS: u64 = 4;

/// One bit away from both syncs.
const NEITHER: &str = "0000010111011111";

/// What one line asks for.
#[derive(Clone)]
struct Asked {
    radius: u8,
    state: State,
    lengths: Lengths,
    recipe: Recipe,
}

impl Asked {
    /// A superframe that is taken, with blocks of every reading.
    fn good(name: &[u64]) -> Asked {
        let mut random = Random::stream(&[&[202], name].concat());
        let recipe = Recipe {
            seed: random.between(0, i64::from(u32::MAX)) as u32,
            service: service(random.bytes(), &bits::of_text(SYNC_2)),
            rate: 8,
            scale: 16,
            place: 0,
            turned: 0,
        };
        Asked {
            radius: radius::ORDINARY,
            state: state(&mut random, 3, 2, false),
            lengths: Lengths::RIGHT,
            recipe,
        }
    }

    fn line(&self) -> String {
        let Lengths {
            bytes,
            samples,
            marks,
        } = self.lengths;
        format!(
            "take {} {bytes} {samples} {marks} {} {} {}",
            self.radius,
            self.recipe.seed,
            text::hex(&self.recipe.bytes()),
            state_text(&self.state)
        )
    }
}

/// The 64 service bits as eight bytes.
fn service(six: [u8; 6], sync: &[Bit]) -> [u8; 8] {
    let mut service = [0; 8];
    service[..6].copy_from_slice(&six);
    service[6..].copy_from_slice(&bits::to_bytes(sync));
    service
}

/// The systematic lines.
pub fn all() -> impl Iterator<Item = String> {
    let parts = [
        refusals_in_order(),
        full_in_order(),
        every_total(),
        length_edges(),
        every_sync(),
        at_both_radii(every_position()),
        at_both_radii(every_damage()),
        at_both_radii(every_factor()),
        longest(),
    ];
    parts.into_iter().flatten().map(|asked| asked.line())
}

fn at_both_radii(all: Vec<Asked>) -> Vec<Asked> {
    let each = all.into_iter().flat_map(|asked| {
        radius::BOTH.map(|radius| Asked {
            radius,
            ..asked.clone()
        })
    });
    each.collect()
}

/// A length, the radius, the state and a sync, each right or wrong, in all combinations.
fn refusals_in_order() -> Vec<Asked> {
    let right = Lengths::RIGHT;
    let lengths = [
        right,
        Lengths {
            bytes: right.bytes - 1,
            ..right
        },
        Lengths {
            samples: right.samples + 1,
            ..right
        },
        Lengths {
            marks: right.marks - 1,
            ..right
        },
    ];
    let mut all = Vec::new();
    for lengths in lengths {
        for field in (0..FEW_FIELDS).chain([FIELDS]) {
            let mut asked = Asked::good(&[1, field]);
            asked.lengths = lengths;
            spoil(&mut asked.state, field, CHANNELS - 1, MISSING + 1);
            asked.recipe.place = LAST_FRAME;
            for radius in [&radius::BOTH[..], &NO_RADII].concat() {
                asked.radius = radius;
                for turned in [0, LAST_THREE_SYNC_BITS] {
                    asked.recipe.turned = turned;
                    all.push(asked.clone());
                }
            }
        }
    }
    all
}

/// The same with a full history and without, and every total too large; one length, and one number that is no radius.
fn full_in_order() -> Vec<Asked> {
    let fulls = (0..=FIELDS).map(|field| (true, field));
    let others = (FEW_FIELDS..FIELDS).map(|field| (false, field));
    let mut all = Vec::new();
    for (full, field) in fulls.chain(others) {
        let mut asked = Asked::good(&[9, field]);
        if full {
            asked.state.totals.lost = MOST as u32 - asked.state.totals.taken;
        }
        spoil(&mut asked.state, field, 0, MISSING + 1);
        asked.recipe.place = LAST_FRAME;
        for radius in [radius::BOTH[(field % 2) as usize], radius::WIDE + 1] {
            asked.radius = radius;
            for samples in [Lengths::RIGHT.samples, Lengths::RIGHT.samples - 1] {
                asked.lengths.samples = samples;
                for turned in [0, LAST_THREE_SYNC_BITS] {
                    asked.recipe.turned = turned;
                    all.push(asked.clone());
                }
            }
        }
    }
    all
}

/// The totals of every edge, with right syncs and a wrong one.
fn every_total() -> Vec<Asked> {
    let mut all = Vec::new();
    for (n, totals) in totals::edges().into_iter().enumerate() {
        let mut asked = Asked::good(&[10, n as u64]);
        asked.radius = radius::BOTH[n % 2];
        asked.state.totals = totals;
        asked.recipe.place = LAST_FRAME;
        for turned in [0, LAST_THREE_SYNC_BITS] {
            asked.recipe.turned = turned;
            all.push(asked.clone());
        }
    }
    all
}

/// Each slice by itself empty, shorter, longer and as long as can be, and all of them at once.
fn length_edges() -> Vec<Asked> {
    let around = |right: usize, most: usize| [0, 1, right / 2, right - 1, right + 1, most];
    let right = Lengths::RIGHT;
    let mut all = Vec::new();
    for (n, bytes) in around(right.bytes, MOST_BYTES).into_iter().enumerate() {
        let lent = around(right.samples, MOST_LENT)[n];
        let (samples, marks) = (lent, lent);
        for lengths in [
            Lengths { bytes, ..right },
            Lengths { samples, ..right },
            Lengths { marks, ..right },
            Lengths {
                bytes,
                samples,
                marks,
            },
        ] {
            let mut asked = Asked::good(&[2]);
            asked.lengths = lengths;
            all.push(asked);
        }
    }
    all
}

/// One wrong bit in the sync of each main frame, every bit in its turn; two and three, which is one too many, in the sync of each; every number
/// of them up to eight; then bits behind the sync, of which only the service bit of A says something.
fn every_sync() -> Vec<Asked> {
    let all = 0..2 * FRAMES;
    let single = all
        .clone()
        .map(|n| (n, n % SYNC / 8, 128 >> (n % SYNC % 8)));
    let two = all.clone().map(|n| (n, 0, 0b11 << (n % 7)));
    let three = all.map(|n| {
        (
            n,
            n % 2,
            if n % 2 == 0 {
                0b111 << (n % 6)
            } else {
                LAST_THREE_SYNC_BITS
            },
        )
    });
    let many = (0..=8).flat_map(|k| [(0, 0, many_ones(k)), (127, 0, many_ones(k))]);
    let behind = [0, 63, 64, 127]
        .into_iter()
        .map(|n| (n, 1, 128 >> (frame::SERVICE % 8)));
    let asked = single.chain(two).chain(three).chain(many).chain(behind);
    let asked = asked.map(|(n, byte, turned)| {
        let mut asked = Asked::good(&[3]);
        asked.recipe.place = (frame::BYTES * n + byte) as u16;
        asked.recipe.turned = turned;
        asked
    });
    asked.collect()
}

/// A byte with so many bits 1, at most eight.
fn many_ones(count: usize) -> u8 {
    ((1u16 << count) - 1) as u8
}

/// Every position and the stages that matter, with each sync; where the separator is searched for, it comes.
fn every_position() -> Vec<Asked> {
    let mut all = Vec::new();
    for position in 0..=8 {
        for stage in [0, 1, 5, 8] {
            let mut asked = Asked::good(&[4, u64::from(position), u64::from(stage)]);
            let mut random = Random::stream(&[203, u64::from(position), u64::from(stage)]);
            asked.state = state(&mut random, position, stage, stage == 0);
            let mut six: [u8; 6] = random.bytes();
            if stage == 0 {
                six[..4].fill(0);
            }
            for sync in [SYNC_1, SYNC_2, NEITHER] {
                asked.recipe.service = service(six, &bits::of_text(sync));
                all.push(asked.clone());
            }
        }
    }
    all
}

/// From no wrong place to nearly all of them; at rates from 4 to 16 many blocks have three.
fn every_damage() -> Vec<Asked> {
    let mut all = Vec::new();
    for rate in [0, 1, 4, 8, 12, 16, 32, 128, 255] {
        for scale in [0, 16, 32, 64, 128] {
            let mut asked = Asked::good(&[5, u64::from(rate), u64::from(scale)]);
            asked.recipe.rate = rate;
            asked.recipe.scale = scale;
            all.push(asked);
        }
    }
    all
}

/// All channels at one factor, or without.
fn every_factor() -> Vec<Asked> {
    let asked = (0..=MISSING).map(|factor| {
        let mut asked = Asked::good(&[6, u64::from(factor)]);
        asked.state.now = [factor; CHANNELS];
        asked
    });
    asked.collect()
}

/// A line that has as many characters as one can have.
fn longest() -> Vec<Asked> {
    let mut asked = Asked::good(&[8]);
    asked.radius = u8::MAX;
    asked.lengths = Lengths {
        bytes: MOST_BYTES,
        samples: MOST_LENT,
        marks: MOST_LENT,
    };
    asked.recipe.seed = u32::MAX;
    asked.state.totals.taken = u32::MAX;
    asked.state.totals.lost = u32::MAX;
    vec![asked]
}

/// A line with one word that is not of its kind, each in its turn, one without a radius and one without totals.
pub fn unreadable() -> impl Iterator<Item = String> {
    let good = Asked::good(&[7]).line();
    let wrong = [
        (1, "256"),
        (1, "03"),
        (1, "-1"),
        (1, "x"),
        (2, "10241"),
        (3, "4097"),
        (4, "4097"),
        (5, "4294967296"),
        (6, "00"),
        (13, "4294967296"),
        (13, "-1"),
        (14, "4294967296"),
        (14, "00"),
        (15, "00"),
        (16, "00"),
        (17, "00"),
    ];
    let no_radius = good.replacen("take 2 ", "take ", 1);
    let words: Vec<&str> = good.split(' ').collect();
    let no_totals = words[..13].join(" ");
    let one_wrong = wrong.into_iter().map(move |(n, word)| {
        let mut words: Vec<&str> = good.split(' ').collect();
        words[n] = word;
        words.join(" ")
    });
    one_wrong.chain([no_radius, no_totals])
}

/// A random line: mostly taken, else with a wrong length, no radius, a state out of range, a wrong sync, or several of them.
pub fn random(random: &mut Random, state: State, six: [u8; 6], sync: &[Bit]) -> String {
    let mut lengths = Lengths::RIGHT;
    if random.percent(15) {
        lengths.bytes = length(random, lengths.bytes, MOST_BYTES);
        lengths.samples = length(random, lengths.samples, MOST_LENT);
        lengths.marks = length(random, lengths.marks, MOST_LENT);
    }
    // One time in five bits of the first two bytes of a main frame, where its sync is.
    let (place, turned) = match random.below(5) {
        0 => {
            let n = random.index(2 * FRAMES);
            (frame::BYTES * n + random.index(2), random.byte())
        }
        _ => (random.index(superframe::BYTES), 0),
    };
    let recipe = Recipe {
        seed: random.between(0, i64::from(u32::MAX)) as u32,
        service: service(six, sync),
        rate: random.one_of(&[0, 1, 4, 8, 8, 12, 16, 128]),
        scale: random.one_of(&[0, 8, 32, 64, 128]),
        place: place as u16,
        turned,
    };
    let asked = Asked {
        radius: drawn_radius(random),
        state,
        lengths,
        recipe,
    };
    asked.line()
}

fn length(random: &mut Random, right: usize, most: usize) -> usize {
    match random.below(4) {
        0 => random.one_of(&[0, 1, right - 1, right + 1, most]),
        1 => random.index(most + 1),
        _ => right,
    }
}
