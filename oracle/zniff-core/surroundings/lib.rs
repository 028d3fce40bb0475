// Stands in for the source's lib.rs, which was not published: the modules that were.
pub mod decoder;
pub mod pti;
pub mod types;
