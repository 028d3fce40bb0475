//! What the library's calls cost, each against its measure, in one process, and the stack they take:
//! `parse_payload`, `read_bits`, `decode_header`, `header_value`, `decode_params`, `add_payload` and the calls on XML against zniff-rs, the checks of
//! definition texts and `mask_nodes` against loops in C, listings against `decode_header`.

mod bits;
mod check;
mod clock;
mod commands;
mod counter;
mod frames;
mod headers;
mod listings;
mod nodes;
mod ours;
mod params;
mod parse;
mod payloads;
mod stack;
mod texts;
mod totals;
mod values;
mod xml;

fn main() {
    parse::run();
    check::run();
    bits::run();
    nodes::run();
    headers::run();
    listings::run();
    params::run();
    values::run();
    totals::run();
    xml::run();
}
