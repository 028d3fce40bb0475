//! Refusals: R1 to R9, TO5, BM3, U5 and LS2 of docs/RULES.md.

use std::fmt::{self, Display};

/// A refusal's number, and what it carries.
#[derive(Debug, Clone, Copy, PartialEq, Eq)]
pub struct Refusal {
    pub number: u8,
    pub carried: usize,
}

impl Display for Refusal {
    fn fmt(&self, f: &mut fmt::Formatter<'_>) -> fmt::Result {
        write!(f, "refused {} {}", self.number, self.carried)
    }
}
