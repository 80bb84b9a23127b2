//! Call lines that go through everything there is, or through every edge.

use super::{blocks, scales, service, state, superframes, totals};
use crate::answer::{state_text, MOST_RUN, MOST_SWEPT};
use crate::bits;
use crate::random::Random;
use crate::reel;
use crate::service::{SYNC_1, SYNC_2};
use crate::superframe;
use crate::text;

type Lines = Box<dyn Iterator<Item = String>>;

/// Everything that can be gone through: all programme bytes, names and modes, all samples and codes at
/// all factors, all scale words, all choices of at most two wrong places of them and of at most three of a block,
/// and the edges of headers, runs, factors, states, totals and superframes.
pub fn all() -> impl Iterator<Item = String> {
    let parts: Vec<Lines> = vec![
        Box::new((0..=255).map(|byte| format!("pread {byte}"))),
        Box::new((0..=255).map(|kind| format!("name {kind}"))),
        Box::new(all_programmes()),
        Box::new(all_sweeps("codes")),
        Box::new(all_sweeps("samples")),
        Box::new(factor_edges()),
        Box::new(scales::all()),
        Box::new(blocks::all()),
        Box::new(header_edges()),
        Box::new(run_edges()),
        Box::new(service_edges()),
        Box::new(totals::all()),
        Box::new(["fresh".to_string()].into_iter()),
        Box::new(superframes::all()),
        Box::new(unreadable()),
    ];
    parts.into_iter().flatten()
}

fn all_programmes() -> impl Iterator<Item = String> {
    let all = (0..18)
        .flat_map(|kind| (0..3).flat_map(move |music| (0..5).map(move |m| (kind, music, m))));
    all.map(|(kind, music, mode)| format!("pwrite {kind} {music} {mode}"))
}

fn all_sweeps(name: &'static str) -> impl Iterator<Item = String> {
    let starts = (-32768..32768).step_by(MOST_SWEPT as usize);
    let factors = [0, 1, 2, 3, 4, 5, 6, 7, 8, 9, 255];
    factors.into_iter().flat_map(move |factor| {
        starts
            .clone()
            .map(move |start| format!("{name} {factor} {start} {MOST_SWEPT}"))
    })
}

/// The sample that just fits each factor, and the one that just doesn't, at the first and the last place.
fn factor_edges() -> impl Iterator<Item = String> {
    let limits = (0..8).map(|s| 1i32 << (15 - s));
    let edges = limits.flat_map(|limit| [-limit - 1, -limit, limit - 1, limit]);
    let edges: Vec<i32> = edges.filter(|x| (-32768..32768).contains(x)).collect();
    edges.into_iter().flat_map(|edge| {
        [0, 63].map(|place| {
            let mut samples = [0; 64];
            samples[place] = edge;
            format!("factor {}", text::spaced(samples))
        })
    })
}

fn header_edges() -> impl Iterator<Item = String> {
    let most = reel::MOST as u32;
    let counts = [0, 1, 255, 256, most - 1, most, most + 1, u32::MAX];
    let firsts = [0, 1, 15, 16, 17, 5136, u32::MAX];
    let summaries = [(0, 0), (1, 0), (0, 1), (5136, 1), (u32::MAX, u32::MAX)];
    let mut lines = Vec::new();
    for count in counts {
        for first in firsts {
            for (summary, entries) in summaries {
                lines.push(header([count, first, summary, entries]));
            }
        }
    }
    let good = header([2, 16, 0, 0]);
    let lengths = (1..=reel::HEADER).map(|n| good[..good.len() - 2 * n].trim_end().to_string());
    lines.extend(lengths.map(|line| {
        if line == "header" {
            "header -".to_string()
        } else {
            line
        }
    }));
    lines.push(format!("{good}00"));
    lines.into_iter()
}

fn header(fields: [u32; 4]) -> String {
    format!(
        "header {}",
        text::hex(&fields.map(u32::to_be_bytes).concat())
    )
}

fn run_edges() -> impl Iterator<Item = String> {
    let whole = superframe::BYTES as i64;
    let near = (0..=4).flat_map(move |n| (-1..=1).map(move |d| whole * n + d));
    let lengths = near.chain([40, 2560, 7680, 16 + whole]);
    let lengths = lengths.filter(|length| (0..=MOST_RUN).contains(length));
    lengths.flat_map(|length| {
        let ks = [0, 1, 2, 3, 4, 5, 1_000_000, 1_000_001, u32::MAX];
        let parts = ks.map(move |k| format!("part {length} {k}"));
        [format!("run {length}")].into_iter().chain(parts)
    })
}

/// Every position and stage in range and just outside it, with each sync, and with the group all 0 or not.
fn service_edges() -> impl Iterator<Item = String> {
    let all = (0..=9).flat_map(|position| (0..=9).map(move |stage| (position, stage)));
    all.flat_map(|(position, stage)| {
        let mut lines = Vec::new();
        let mut random = Random::stream(&[u64::from(position), u64::from(stage)]);
        for zero in [true, false] {
            let state = state(&mut random, position, stage, zero);
            let mut six: [u8; 6] = random.bytes();
            if zero {
                six[..4].fill(0);
            }
            for sync in [SYNC_1, SYNC_2, "0000010111011111"] {
                lines.push(service(&state, &six, &bits::of_text(sync)));
            }
            lines.push(format!("lose {}", state_text(&state)));
            if !zero {
                lines.push(format!("reset {}", state_text(&state)));
            }
        }
        lines
    })
}

/// Lines that no program can read.
fn unreadable() -> impl Iterator<Item = String> {
    let good = "pwrite 1 0 1";
    let bad = [
        "bwrit 0 0 0 0 0 0",
        "bwrites 0 0 0 0 0 0",
        "x",
        "=",
        "bwrite",
        "bwrite 0 0 0 0 0",
        "bwrite 0 0 0 0 0 0 0",
        "bwrite 0 0 x 0 0 0",
        "bwrite 0 0 0 0 0 -1",
        "bcodes",
        "fwrite c",
        "fread a",
        "fread c 00",
        "fread a 0",
        "fread a 0g",
        "code 1",
        "code 32768 0",
        "code -32769 0",
        "sample 1 256",
        "codes 0 0 4097",
        "codes 0 32767 2",
        "factor",
        "factor 1 x",
        "sread 0",
        "sextra 0",
        "pread 256",
        "pread -1",
        "pread",
        "name",
        "name KEINE",
        "header",
        "header 0",
        "run",
        "run 20481",
        "part 5120",
        "part 5120 4294967296",
        "fresh 0",
        "lose",
        "lose 00",
        "reset",
        "reset 00",
        "service",
        "take",
        "take 2 5120 2048 2048",
    ];
    let blanks = [
        good.replace(' ', "  "),
        format!("{good} "),
        format!(" {good}"),
        good.to_uppercase(),
    ];
    let short = bad.into_iter().map(str::to_string);
    short
        .chain(blocks::unreadable())
        .chain(superframes::unreadable())
        .chain(blanks)
}
