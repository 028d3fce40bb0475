//! The limits of T33 and R4 (docs/RULES.md), which the Rust does not have, and the replay program's.

use crate::refusal::Refusal;

/// Refusal 4: the bytes are more than the limit.
pub fn within(limit: usize, bytes: &[u8]) -> Result<(), Refusal> {
    let length = bytes.len();
    if length <= limit { Ok(()) } else { Err(Refusal { number: 4, carried: length }) }
}

/// The longest payload that is not refused by 4.
pub const PAYLOAD: usize = 65_535;
/// The longest record body that is not refused by 4.
pub const BODY: usize = 2_048;
/// The longest MPDU and the longest command payload that are not refused by 4.
pub const MPDU: usize = 2_048;
pub const COMMAND: usize = 2_048;
/// The most rows that a request may ask for.
pub const CAP: u64 = 16_384;
/// The most bytes that a request may ask for as a buffer.
pub const BUFFER: u64 = 196_608;

/// The longest line that a replay program has to hold.
pub const LINE: usize = 400_000;

/// The longest definition text that is not refused by 2.
pub const TEXT: usize = 60_000;
/// F, B, H and D lines in a frame text.
pub const RADIO_FREQUENCIES: usize = 16;
pub const BASE_HEADERS: usize = 16;
pub const HEADERS: usize = 64;
pub const DEFINE_SETS: usize = 16;
/// P lines of all levels under one B or H, and the highest level.
pub const PARAMS: usize = 64;
pub const LEVEL: u64 = 7;
/// V lines under one H.
pub const VALIDATIONS: usize = 16;
/// E lines under one D.
pub const DEFINES: usize = 64;
/// Q and G lines together in a command text.
pub const CMD_ITEMS: usize = 256;
/// Lines under one Q.
pub const PARAM_ITEMS: usize = 32;
/// The highest shift that is not refused by 3.
pub const SHIFT: u8 = 7;
