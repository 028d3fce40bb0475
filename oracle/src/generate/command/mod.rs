//! Requests about commands. A command text is drawn around a payload: each Q and G with a look at
//! what has been answered before it, so that lengths, conditions and counts mostly come to
//! something.

mod items;
mod text;

use super::cap::cap;
use super::texts;
use crate::definition::command::CommandDefinition;
use crate::limits;
use crate::random::Random;
use crate::reading::command::{Offsets, decode_params};
use crate::request::Request;

pub fn command(random: &mut Random) -> Vec<u8> {
    let (cap, text, payload) = drawn(random, Offsets::Answered);
    Request::Command { cap, text, payload }.line()
}

/// Mostly with offsets by position, drawn around what these find.
pub fn commandby(random: &mut Random) -> Vec<u8> {
    let offsets = match random.one_in(8) {
        true => Offsets::Answered,
        false => Offsets::Position,
    };
    let (cap, text, payload) = drawn(random, offsets);
    Request::Commandby { offsets, cap, text, payload }.line()
}

/// The numbers of a table, a text and a payload.
fn drawn(random: &mut Random, offsets: Offsets) -> (u64, Vec<u8>, Vec<u8>) {
    let (payload, items) = match random.below(200) {
        0 => items::about_offset_255(random, offsets),
        1 => items::many_rows(random),
        _ => {
            let length = payload_length(random);
            let payload = super::small_bytes(random, length);
            let items = items::items(random, payload.get(2..).unwrap_or_default(), offsets);
            (payload, items)
        }
    };
    let definition = CommandDefinition { items };
    let mut text = text::text(random, &definition);
    let decoded = decode_params(&definition, &payload, offsets);
    let cap = cap(random, decoded.map(|command| command.rows.len()));
    if random.one_in(25) {
        text = texts::damaged_command_text(random, &text);
    }
    (cap, text, payload)
}

fn payload_length(random: &mut Random) -> usize {
    match random.below(400) {
        0..=7 => random.below(2),
        8..=11 => 2,
        12..=199 => random.from_to(3, 20),
        200..=359 => random.from_to(21, 64),
        360..=391 => random.from_to(65, 300),
        392..=393 => random.from_to(300, limits::COMMAND),
        394..=396 => limits::COMMAND,
        397..=398 => limits::COMMAND + 1,
        _ => random.from_to(limits::COMMAND, 2 * limits::COMMAND),
    }
}
