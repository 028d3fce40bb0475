// Stands in for the source's file of this name, which was not published.
pub mod command_class;
pub mod frame_definition;
