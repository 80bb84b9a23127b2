//! The programme byte and the names of the types (document 01, "Service groups").

use crate::numbers::Refusal;

/// In the order of the directive; padded with spaces to eight characters.
const NAMES: [&str; 16] = [
    "KEINE", "NACHRICH", "POLITIK", "SPEZWORT", "SPORT", "LERNEN", "HOER+LIT", "KULTUR", "WISSEN",
    "UNTERHAL", "POP", "ROCK", "U-MUSIK", "L-KLASS", "E-KLASS", "SPEZ MUS",
];

#[derive(Clone, Copy, Debug, PartialEq, Eq)]
pub struct Programme {
    pub kind: u8,
    /// 1 music, 0 speech.
    pub music: u8,
    /// Mono is 1.
    pub mode: u8,
}

/// Type (4 bits), music (1), mode (2), parity (1).
pub fn read(byte: u8) -> Result<Programme, Refusal> {
    if byte.count_ones() % 2 != 0 {
        return Err(Refusal::Parity);
    }
    Ok(Programme {
        kind: byte / 16,
        music: byte / 8 % 2,
        mode: byte / 2 % 4,
    })
}

pub fn write(programme: Programme) -> Result<u8, Refusal> {
    let Programme { kind, music, mode } = programme;
    if kind > 15 || music > 1 || mode > 3 {
        return Err(Refusal::Range);
    }
    let seven = 16 * kind + 8 * music + 2 * mode;
    Ok(seven + (seven.count_ones() % 2) as u8)
}

pub fn name_of(kind: u8) -> Result<String, Refusal> {
    match NAMES.get(usize::from(kind)) {
        Some(name) => Ok(format!("{name:8}")),
        None => Err(Refusal::Range),
    }
}
