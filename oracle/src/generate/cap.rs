//! How many rows the table of a walk has.

use crate::limits;
use crate::random::Random;
use crate::refusal::Refusal;

/// For an answer of so many rows: mostly enough; else a row short, few, none, or the largest.
pub fn cap(random: &mut Random, rows: Result<usize, Refusal>) -> u64 {
    let rows = rows.unwrap_or(3);
    let cap = match random.below(1_000) {
        0..=449 => rows,
        450..=649 => rows + 1,
        650..=869 => rows + random.below(40),
        870..=929 => rows.saturating_sub(1),
        930..=964 => random.below(rows + 1),
        965..=995 => 0,
        _ => limits::CAP as usize,
    };
    limits::CAP.min(cap as u64)
}
