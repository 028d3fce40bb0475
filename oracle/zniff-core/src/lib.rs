//! zniff-rs's `crates/core` as far as it was published, unchanged.
//!
//! The build lays three trees together: `../zniff-rs/crates/core/src` (the source's text),
//! `surroundings` (what the source leans on and was not published) and `accessors` (appended to
//! the source's files of the same names: doors to private functions).

// The text is the source's: what a lint would have otherwise stays as it is.
#![allow(dead_code, clippy::all)]

include!(concat!(env!("OUT_DIR"), "/core/lib.rs"));

/// Where the text that is compiled stands.
pub const BUILT: &str = concat!(env!("OUT_DIR"), "/core");
