//! Requests about masks of nodes: of headers and commands that are drawn for `header` and `commandby`, and of texts that
//! have little but a mask, of 1 to 255 bytes at any bit, with no bit, one, some or all of them set.

use super::cap::cap;
use super::{command, header};
use crate::definition::command::CommandDefinition;
use crate::definition::frame::FrameDefinition;
use crate::definition;
use crate::random::Random;
use crate::reading::command::Offsets;
use crate::reading::nodes::{command_mask, header_mask, nodes};
use crate::request::Request;

pub fn headernodes(random: &mut Random) -> Vec<u8> {
    let (region, speed, text, mpdu) = if random.one_in(3) { drawn(random) } else { aimed(random) };
    let definition: Option<FrameDefinition> = definition::read(&text).ok();
    let mask = |row: u64| header_mask(definition.as_ref()?, &mpdu, region, speed, row).ok();
    let (row, cap) = row_and_cap(random, mask);
    Request::Headernodes { cap, row, region, speed, text, mpdu }.line()
}

pub fn commandnodes(random: &mut Random) -> Vec<u8> {
    let (offsets, text, payload) =
        if random.one_in(3) { drawn_command(random) } else { aimed_command(random) };
    let definition: Option<CommandDefinition> = definition::read(&text).ok();
    let mask = |row: u64| command_mask(definition.as_ref()?, &payload, offsets, row).ok();
    let (row, cap) = row_and_cap(random, mask);
    Request::Commandnodes { offsets, cap, row, text, payload }.line()
}

/// Mostly a row that is a mask, and mostly room for its nodes.
fn row_and_cap<'a>(random: &mut Random, mask: impl Fn(u64) -> Option<&'a [u8]>) -> (u64, u64) {
    let masks: Vec<u64> = (0..24).filter(|&row| mask(row).is_some()).collect();
    let row = match random.below(40) {
        0 => random.pick(&[24, 127, 128, 255, 65_536, u64::MAX]),
        1..=9 => random.below(8) as u64,
        _ if masks.is_empty() => random.below(8) as u64,
        _ => random.pick(&masks),
    };
    let count = mask(row).map_or(3, |mask| nodes(mask).len());
    (row, cap(random, Ok(count)))
}

fn drawn(random: &mut Random) -> (u64, u64, Vec<u8>, Vec<u8>) {
    let line = header::header(random);
    let Some(Request::Header { region, speed, text, mpdu, .. }) = Request::read(&line) else {
        unreachable!("a drawn request has the form of one");
    };
    (region, speed, text, mpdu)
}

fn drawn_command(random: &mut Random) -> (Offsets, Vec<u8>, Vec<u8>) {
    let line = command::commandby(random);
    let Some(Request::Commandby { offsets, text, payload, .. }) = Request::read(&line) else {
        unreachable!("a drawn request has the form of one");
    };
    (offsets, text, payload)
}

/// A number, bits and a mask: of so many bytes as M or the number says, or the rest; alone, behind a Q that is absent, or in a
/// group.
fn aimed_command(random: &mut Random) -> (Offsets, Vec<u8>, Vec<u8>) {
    let kind = match random.below(8) {
        0 => random.pick(&["MULTI_ARRAY", "VARIANT", "ARRAY", "BYTE", "STRUCT_BYTE"]),
        _ => "BITMASK",
    };
    let length = match random.below(6) {
        0 => random.pick(&[1, 7, 8, 9, 15, 16, 17, 24, 25, 29, 31]),
        1 => random.from_to(32, 255),
        _ => random.from_to(1, 31),
    };
    let mut text = "Q\t0\tBYTE\tSize\t-\t-\n".to_string();
    let mut payload = vec![0x20, 0x01, length as u8];
    let mut entry = 1;
    if random.one_in(3) {
        text += "Q\t0\tBYTE\tAbsent\t0\t0\n";
        entry += 1;
    }
    if random.one_in(3) {
        text += "Q\t0\tSTRUCT_BYTE\tBits\t-\t-\nT\t128\tFlag\nS\t127\t-\tLow\n";
        payload.push(random.byte());
        entry += 1;
    }
    let level = usize::from(random.one_in(3));
    if level == 1 {
        text += &format!("G\tMasks\t{}\t3\t0\n", random.pick(&[0, 255]));
        if random.one_in(2) {
            text += "Q\t1\tBYTE\tSize\t-\t-\n";
        }
    }
    text += &format!("Q\t{level}\t{kind}\tMask\t-\t-\n");
    text += &match random.below(5) {
        0 => String::new(),
        1 => format!("M\t{length}\n"),
        2 => "M\t-\nR\t0\t255\t-\t0\n".to_string(),
        3 => format!("R\t{}\t255\t-\t0\n", random.below(entry + 1)),
        _ => format!("R\t0\t255\t{}\t0\n", random.pick(&["-", "1"])),
    };
    if random.one_in(3) {
        text += "T\t1\tOne\n";
    }
    if random.one_in(2) {
        text += &format!("Q\t0\tBITMASK\tNext\t-\t-\nM\t{}\n", random.from_to(1, 4));
    }
    let size = length + random.below(6);
    payload.extend(mask(random, size + 1));
    let offsets = random.pick(&[Offsets::Answered, Offsets::Position]);
    (offsets, text.into_bytes(), payload)
}

/// Some bits, a number, and then a mask: of so many bits, or of so many bytes as the number says, or inside another
/// field.
fn aimed(random: &mut Random) -> (u64, u64, Vec<u8>, Vec<u8>) {
    let kind = if random.one_in(8) { random.pick(&["HEX", "NUMBER", "NODE_NUMBER"]) } else { "BITMASK" };
    let lead = random.pick(&[0, 0, 0, 0, 8, 16, 24, 4, 1]);
    let mut bits = vec![random.one_in(2); lead];
    let length = match random.below(6) {
        0 => random.pick(&[1, 7, 8, 9, 15, 16, 17, 24, 25, 29, 31]),
        1 => random.from_to(32, 255),
        _ => random.from_to(1, 31),
    };
    let mut text = "B\t0\n".to_string();
    if lead > 0 {
        text += &format!("P\t0\t0\t{lead}\tHEX\tLead\t-\t-\t-\n");
    }
    text += "P\t0\t1\t8\tNUMBER\tSize\t-\t-\t-\n";
    push(&mut bits, length as u8);
    text += &match random.below(8) {
        0 if length < 31 => {
            let off = random.from_to(1, 7);
            format!("P\t0\t2\t{}\t{kind}\tMask\t-\t-\t-\n", 8 * length + off)
        }
        1 | 2 if length < 31 => format!(
            "P\t0\t2\t{}\tHEX\tOuter\t-\t-\t-\nP\t1\t0\t{}\t{kind}\tInner\t-\t-\t-\nP\t1\t1\t{}\t{kind}\tMore\t-\t-\t-\n",
            8 * length + 8,
            8 * length,
            random.pick(&[8, 4])
        ),
        3 | 4 if length < 32 => format!("P\t0\t2\t{}\t{kind}\tMask\t-\t-\t-\n", 8 * length),
        _ => format!("P\t0\t2\t0\t{kind}\tMask\t-\t-\tSize\n"),
    };
    text += "H\t0\t0\t0010\tMulticast\n";
    text += &format!("V\tSize\t{length}\n");
    if random.one_in(4) {
        text += "P\t0\t0\t16\tBITMASK\tOwn\t-\t-\t-\n";
    }
    for byte in mask(random, length + 4) {
        push(&mut bits, byte);
    }
    (0, random.pick(&[0, 1, 2]), text.into_bytes(), packed(&bits))
}

/// No bit, one, all of them, or any.
fn mask(random: &mut Random, length: usize) -> Vec<u8> {
    match random.below(8) {
        0 => vec![0; length],
        1 => vec![0xFF; length],
        2 | 3 => {
            let mut bytes = vec![0; length];
            bytes[random.below(length)] = 1 << random.below(8);
            bytes
        }
        4 => random.bytes_of(&[0, 0, 0, 0x80, 0x01, 0x10], length),
        _ => random.bytes(length),
    }
}

fn push(bits: &mut Vec<bool>, byte: u8) {
    bits.extend((0..8).rev().map(|bit| byte & (1 << bit) != 0));
}

fn packed(bits: &[bool]) -> Vec<u8> {
    let byte = |bits: &[bool]| (0..8).fold(0, |byte, i| byte << 1 | u8::from(bits.get(i) == Some(&true)));
    bits.chunks(8).map(byte).collect()
}
