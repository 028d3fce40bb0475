// Stands in for the source's file of this name, which was not published.
pub mod decode;
pub mod schema;
