//! The oracle: zniff-rs's own code behind the requests of the replay program, with a judge of
//! definition texts, a second reading of document 01, a generator of requests and a comparison of
//! the two programs over them.
//!
//! A new request word has four places: [`request`] (its form), [`answer`] (what the Rust says),
//! [`generate::KINDS`] (how it is drawn) and, where the rules have examples, `examples.txt`.

pub mod answer;
pub mod compare;
pub mod definition;
pub mod generate;
pub mod limits;
pub mod random;
pub mod reading;
pub mod refusal;
pub mod request;
pub mod rows;
pub mod sample;
pub mod shape;
pub mod source;
pub mod totals;
