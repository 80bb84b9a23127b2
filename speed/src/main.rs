//! How fast the proved reader is, beside a plain program that works bit by bit, and at radius 3 beside itself at radius 2: on the same reels, in one process,
//! by turns, the fastest of several runs of each. Before the two are timed, every superframe is taken by both, and all that they hand out has to be the same.

mod plain;
mod proved;

use plain::Plain;
use std::io::{self, Write};
use std::time::{Duration, Instant};

const BYTES: usize = 5120;
const FRAMES: usize = 64;
const CHANNELS: usize = 32;
const SAMPLES: usize = FRAMES * CHANNELS;
const MISSING: u8 = 8;
const HEADER: usize = 16;
const RUNS: usize = 25;
/// How long both readers work before the first measurement, until the processor has its speed.
const WARM: Duration = Duration::from_millis(500);

/// What is carried from a superframe to the next, and what is counted in it.
#[derive(Clone, PartialEq, Eq, Debug)]
pub struct Beside {
    /// Those of the next superframe, then those of the one after it.
    factors: [u8; 2 * CHANNELS],
    /// Clean, mended and bad blocks in each of the eight positions.
    counts: [u8; 24],
}

impl Beside {
    fn fresh() -> Self {
        Self {
            factors: [MISSING; 2 * CHANNELS],
            counts: [0; 24],
        }
    }

    fn advance(&mut self, read: [u8; CHANNELS], counts: [u8; 24]) {
        self.factors.copy_within(CHANNELS.., 0);
        self.factors[CHANNELS..].copy_from_slice(&read);
        self.counts = counts;
    }

    fn lose(&mut self) {
        self.advance([MISSING; CHANNELS], [0; 24]);
    }

    fn packed(&self) -> [u8; 88] {
        let mut packed = [0; 88];
        packed[..64].copy_from_slice(&self.factors);
        packed[64..].copy_from_slice(&self.counts);
        packed
    }

    fn unpacked(packed: &[u8; 88]) -> Self {
        let mut beside = Self::fresh();
        beside.factors.copy_from_slice(&packed[..64]);
        beside.counts.copy_from_slice(&packed[64..]);
        beside
    }
}

/// The two lent lists. They are cleared once, before the first superframe.
#[derive(Clone, PartialEq, Eq)]
pub struct Lists {
    samples: Vec<i16>,
    marks: Vec<u8>,
}

impl Lists {
    fn cleared() -> Self {
        Self {
            samples: vec![0; SAMPLES],
            marks: vec![0; SAMPLES],
        }
    }
}

/// Why there is no measurement.
enum Fault {
    /// What is to be said.
    Said(String),
    /// What was measured could not be written.
    Unwritten(io::Error),
}

impl From<String> for Fault {
    fn from(said: String) -> Self {
        Self::Said(said)
    }
}

fn write_line(line: &str) -> Result<(), Fault> {
    writeln!(io::stdout(), "{line}").map_err(Fault::Unwritten)
}

type Superframes = Vec<[u8; BYTES]>;

fn superframes(path: &str) -> Result<Superframes, String> {
    let reel = std::fs::read(path).map_err(|why| format!("{path}: {why}"))?;
    let parts = reel.get(HEADER..).unwrap_or_default().chunks_exact(BYTES);
    let all: Superframes = parts
        .map(|part| part.try_into().expect("a chunk has its length"))
        .collect();
    if all.is_empty() {
        return Err(format!("{path}: no superframe"));
    }
    Ok(all)
}

/// A reader, by what it does with one superframe.
type Reader<'a> = &'a dyn Fn(&mut Beside, &[u8; BYTES], &mut Lists) -> u8;

fn differ(reel: &Superframes, one: Reader, other: Reader) -> Option<usize> {
    let mut beside = [Beside::fresh(), Beside::fresh()];
    let mut lists = [Lists::cleared(), Lists::cleared()];
    reel.iter().position(|superframe| {
        let numbers = [
            one(&mut beside[0], superframe, &mut lists[0]),
            other(&mut beside[1], superframe, &mut lists[1]),
        ];
        numbers[0] != numbers[1] || beside[0] != beside[1] || lists[0] != lists[1]
    })
}

fn time(reel: &Superframes, reader: Reader) -> Duration {
    let mut beside = Beside::fresh();
    let mut lists = Lists::cleared();
    let start = Instant::now();
    for superframe in reel {
        std::hint::black_box(reader(
            &mut beside,
            std::hint::black_box(superframe),
            &mut lists,
        ));
        std::hint::black_box((&mut beside, &mut lists));
    }
    start.elapsed()
}

/// Times both readers, and writes the microseconds for a superframe with what their ratio is to be.
fn measure(
    path: &str,
    reel: &Superframes,
    readers: [Reader; 2],
    ratio: fn([f64; 2]) -> f64,
) -> Result<(), Fault> {
    let mut best = [Duration::MAX; 2];
    for _ in 0..RUNS {
        for (best, reader) in best.iter_mut().zip(readers) {
            *best = (*best).min(time(reel, reader));
        }
    }
    let micros = best.map(|time| time.as_secs_f64() * 1e6 / reel.len() as f64);
    let name = std::path::Path::new(path)
        .file_stem()
        .unwrap_or_default()
        .to_string_lossy()
        .into_owned();
    write_line(&format!(
        "{name:<12} {:>9.1} {:>9.1} {:>8.2} {:>10.0}",
        micros[0],
        micros[1],
        ratio(micros),
        1e6 / micros[1]
    ))
}

/// The plain reader and the proved one, which have to hand out the same.
fn beside_plain(path: &str, plain: Reader, proved: Reader) -> Result<(), Fault> {
    let reel = superframes(path)?;
    if let Some(place) = differ(&reel, plain, proved) {
        return Err(Fault::Said(format!(
            "{path}: superframe {} is taken otherwise by the two",
            place + 1
        )));
    }
    measure(path, &reel, [plain, proved], |[plain, proved]| {
        plain / proved
    })
}

fn heads(first: &str, second: &str) -> Result<(), Fault> {
    write_line(&format!(
        "{:<12} {first:>9} {second:>9} {:>8} {:>10}",
        "reel", "ratio", "a second"
    ))
}

fn run() -> Result<(), Fault> {
    let paths: Vec<String> = std::env::args().skip(1).collect();
    if paths.is_empty() {
        return Err(Fault::Said("name the reels to measure on".into()));
    }
    let plain = Plain::new();
    let plain = |beside: &mut Beside, bytes: &[u8; BYTES], lists: &mut Lists| {
        plain.take(beside, bytes, lists)
    };
    let ordinary = |beside: &mut Beside, bytes: &[u8; BYTES], lists: &mut Lists| {
        proved::take(2, beside, bytes, lists)
    };
    let wide = |beside: &mut Beside, bytes: &[u8; BYTES], lists: &mut Lists| {
        proved::take(3, beside, bytes, lists)
    };
    let first = superframes(&paths[0])?;
    let start = Instant::now();
    while start.elapsed() < WARM {
        time(&first, &plain);
        time(&first, &ordinary);
    }
    write_line(&format!("microseconds for a superframe; the fastest of {RUNS} runs of each, by turns; lists cleared once, before the first superframe"))?;
    heads("plain", "proved")?;
    for path in &paths {
        beside_plain(path, &plain, &ordinary)?;
    }
    write_line(
        "the proved reader at radius 2 and at radius 3, and how many times as long it takes",
    )?;
    heads("at 2", "at 3")?;
    for path in &paths {
        measure(
            path,
            &superframes(path)?,
            [&ordinary, &wide],
            |[two, three]| three / two,
        )?;
    }
    Ok(())
}

/// A reader of the text that has had enough is told nothing; the status is the one that a shell gives for that.
const CLOSED_PIPE: u8 = 141;

fn main() -> std::process::ExitCode {
    match run() {
        Ok(()) => std::process::ExitCode::SUCCESS,
        Err(Fault::Unwritten(why)) if why.kind() == io::ErrorKind::BrokenPipe => CLOSED_PIPE.into(),
        Err(Fault::Unwritten(why)) => {
            eprintln!(
                "speed: writing failed, so what stands on standard output is not whole: {why}"
            );
            std::process::ExitCode::FAILURE
        }
        Err(Fault::Said(why)) => {
            eprintln!("speed: {why}");
            std::process::ExitCode::FAILURE
        }
    }
}
