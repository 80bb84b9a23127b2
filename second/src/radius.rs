//! How many places of a block are mended at most, as the caller chooses (document 02, P9).

/// The mission's second demand.
pub const ORDINARY: u8 = 2;
/// For the worst tapes.
pub const WIDE: u8 = 3;
pub const BOTH: [u8; 2] = [ORDINARY, WIDE];

pub fn in_range(radius: u8) -> bool {
    BOTH.contains(&radius)
}

/// A radius as it may stand on the command line.
pub fn parse(text: &str) -> Result<u8, String> {
    let radius = BOTH.into_iter().find(|radius| radius.to_string() == text);
    radius.ok_or(format!("a radius is 2 or 3, not '{text}'"))
}
