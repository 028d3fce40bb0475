//! Requests about values as people read them: of headers and commands that are drawn for `header` and `commandby`, and of
//! texts that have fields of every type and width, with and without symbols, const names and ascii.

use super::{command, header};
use crate::definition;
use crate::limits;
use crate::random::Random;
use crate::reading::command::Offsets;
use crate::reading::values::{command_values, header_values};
use crate::request::Request;

pub fn headervalue(random: &mut Random) -> Vec<u8> {
    let (region, speed, text, mpdu) = if random.one_in(3) { drawn(random) } else { aimed(random) };
    let values: Vec<String> = definition::read(&text)
        .and_then(|definition| header_values(&definition, &mpdu, region, speed))
        .unwrap_or_default();
    let row = row(random, values.len());
    let length = values.get(row as usize).map_or(4, String::len);
    let cap = room(random, length);
    Request::Headervalue { cap, row, region, speed, text, mpdu }.line()
}

pub fn commandvalue(random: &mut Random) -> Vec<u8> {
    let (offsets, text, payload) =
        if random.one_in(3) { drawn_command(random) } else { aimed_command(random) };
    let values: Vec<String> = definition::read(&text)
        .and_then(|definition| command_values(&definition, &payload, offsets))
        .unwrap_or_default();
    let row = row(random, values.len());
    let length = values.get(row as usize).map_or(4, String::len);
    let cap = room(random, length);
    Request::Commandvalue { offsets, cap, row, text, payload }.line()
}

/// Mostly a row that there is.
fn row(random: &mut Random, rows: usize) -> u64 {
    match random.below(40) {
        0 => random.pick(&[rows as u64, 127, 128, 255, 65_536, u64::MAX]),
        _ if rows == 0 => random.below(3) as u64,
        _ => random.below(rows) as u64,
    }
}

/// For a text of so many bytes: mostly enough; else a byte short, few or none.
pub fn room(random: &mut Random, length: usize) -> u64 {
    let room = match random.below(100) {
        0..=54 => length,
        55..=69 => length + 1,
        70..=84 => length + random.below(40),
        85..=91 => length.saturating_sub(1),
        92..=95 => random.below(length + 1),
        96..=98 => 0,
        _ => limits::BUFFER as usize,
    };
    limits::BUFFER.min(room as u64)
}

fn drawn(random: &mut Random) -> (u64, u64, Vec<u8>, Vec<u8>) {
    let line = header::header(random);
    let Some(Request::Header { region, speed, text, mpdu, .. }) = Request::read(&line) else {
        unreachable!("a drawn request has the form of one");
    };
    (region, speed, text, mpdu)
}

fn drawn_command(random: &mut Random) -> (Offsets, Vec<u8>, Vec<u8>) {
    let line = command::commandby(random);
    let Some(Request::Commandby { offsets, text, payload, .. }) = Request::read(&line) else {
        unreachable!("a drawn request has the form of one");
    };
    (offsets, text, payload)
}

const PARAMETER_TYPES: &[&str] = &[
    "BYTE", "WORD", "DWORD", "BIT_24", "ARRAY", "VARIANT", "CONST", "STRUCT_BYTE", "BITMASK", "MARKER", "MULTI_ARRAY",
];

/// Parameters of every type, some of them ascii or with names of their values, some in a group; bytes that are text, nearly text, and
/// any.
fn aimed_command(random: &mut Random) -> (Offsets, Vec<u8>, Vec<u8>) {
    let mut text = String::new();
    let mut level = 0;
    for number in 0..random.from_to(1, 6) {
        if random.one_in(6) {
            text += &format!("G\tG{number}\t{}\t3\t0\n", random.pick(&[0, 1, 255]));
            level = 1;
        } else if level == 1 && random.one_in(3) {
            level = 0;
        }
        let kind = random.pick(PARAMETER_TYPES);
        text += &format!("Q\t{level}\t{kind}\tP{number}\t-\t-\n");
        for _ in 0..random.below(5) {
            text += &match random.below(8) {
                0 | 1 => format!("A\t{}\t{}\n", random.from_to(1, 12), random.below(2)),
                2 => format!("R\t{}\t{}\t-\t{}\n", random.pick(&[0, 1, 255]), random.pick(&[0, 7, 31]), random.below(2)),
                3 => format!("M\t{}\n", random.from_to(1, 9)),
                4 => format!("T\t{}\tFlag\n", random.pick(&[1, 16, 128, 255])),
                5 => format!("S\t{}\t{}\tBits\n", random.pick(&[3, 28, 240]), random.below(5)),
                _ => format!("K\t{}\t{}\n", random.pick(&[0, 1, 2, 65, 255]), random.pick(&["Off", "On", "a name", "--"])),
            };
        }
    }
    let mut payload = vec![0x20, 0x01];
    while payload.len() < 40 && !random.one_in(6) {
        payload.extend(piece(random));
    }
    let offsets = random.pick(&[Offsets::Answered, Offsets::Answered, Offsets::Position]);
    (offsets, text.into_bytes(), payload)
}

/// The ends of the rows of Table 3-7 of the Unicode Standard and the bytes next to them, and letters and zero bytes.
const NEAR_TEXT: &[u8] = &[
    0x00, 0x41, 0x7F, 0x80, 0x8F, 0x90, 0x9F, 0xA0, 0xBF, 0xC0, 0xC1, 0xC2, 0xDF, 0xE0, 0xE1, 0xEC, 0xED, 0xEE, 0xEF,
    0xF0, 0xF1, 0xF3, 0xF4, 0xF5, 0xFF,
];

/// Some bytes: a character, one that is cut short, what is nearly text, zero bytes, or any.
fn piece(random: &mut Random) -> Vec<u8> {
    let mut character = || {
        let code = random.pick(&[0x41, 0x7F, 0x80, 0x7FF, 0x800, 0xD7FF, 0xE000, 0xFFFD, 0xFFFF, 0x1_0000, 0x10_FFFF]);
        char::from_u32(code).expect("a character").to_string().into_bytes()
    };
    let whole = character();
    match random.below(6) {
        0 | 1 => whole,
        2 => whole[..random.below(whole.len()) + 1].to_vec(),
        3 => {
            let length = random.from_to(1, 5);
            random.bytes_of(NEAR_TEXT, length)
        }
        4 => vec![0; random.from_to(1, 3)],
        _ => {
            let length = random.from_to(1, 4);
            random.bytes(length)
        }
    }
}

const TYPES: &[&str] = &["HEX", "NUMBER", "NUMBER_SIGNED", "NODE_NUMBER", "BOOLEAN", "BITMASK"];

/// A few bits, then fields of any type and width, some with a define set that may have their value.
fn aimed(random: &mut Random) -> (u64, u64, Vec<u8>, Vec<u8>) {
    let lead = random.pick(&[8, 8, 8, 16, 1, 4, 12]);
    let mut text = format!("B\t0\nP\t0\t0\t{lead}\tHEX\tLead\t-\t-\t-\n");
    for order in 1..=random.from_to(1, 6) {
        let kind = random.pick(TYPES);
        let bits = match random.below(8) {
            0 => random.pick(&[63, 64, 65, 72, 128, 136, 255]),
            1 => random.from_to(1, 255),
            2 | 3 => random.pick(&[8, 16, 24, 32]),
            _ => random.from_to(1, 20),
        };
        let set = random.pick(&["-", "-", "S", "T"]);
        text += &format!("P\t0\t{order}\t{bits}\t{kind}\tF{order}\t{set}\t-\t-\n");
        if random.one_in(3) {
            let (kind, bits) = (random.pick(TYPES), random.from_to(1, bits));
            text += &format!("P\t1\t0\t{bits}\t{kind}\tI{order}\tS\t-\t-\n");
        }
    }
    text += "H\t0\t0\t0000\tAny\nV\tLead\t0\n";
    for set in ["S", "T", "S"] {
        text += &format!("D\t{set}\n");
        for _ in 0..random.below(6) {
            let key = random.pick(&[0, 1, 2, 3, 7, 127, 128, 255, 256, 65_535]);
            let name = random.pick(&["Off", "On", "a symbol", "--", "x"]);
            text += &format!("E\t{key}\t{name}\n");
        }
    }
    let length = random.from_to(2, 70);
    let mut mpdu = match random.below(3) {
        0 => random.bytes_of(&[0, 1, 2, 3, 0x7F, 0x80, 0xFF], length),
        1 => random.bytes_of(&[0, 0, 0, 1], length),
        _ => random.bytes(length),
    };
    mpdu[0] = 0;
    mpdu[1] = 0;
    (0, random.pick(&[0, 1, 2]), text.into_bytes(), mpdu)
}
